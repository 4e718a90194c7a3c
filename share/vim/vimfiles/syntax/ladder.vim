" Program texts of ladder: ladder diagrams drawn in characters (docs/user/drawing.md).
if exists('b:current_syntax')
  finish
endif

" A long comment or block of declarations may begin far above the window.
syntax sync fromstart
syntax case ignore

" Comments, in the declarations and between rungs.
syntax region ladderComment start="(\*" end="\*)" contains=@Spell
syntax match ladderComment "//.*$" contains=@Spell

" The declarations.
syntax region ladderDeclarations matchgroup=ladderStructure start="^\s*\zsVAR\>" start="\%(\*)\s*\)\@<=VAR\>" end="\<END_VAR\>"
      \ contains=ladderComment,ladderName,ladderKeyword,ladderType,ladderBoolean,ladderAddress,ladderDuration,ladderNumber,ladderPreset
syntax match ladderName contained "\<\h\w*\>" nextgroup=ladderAlias skipwhite
syntax match ladderNumber contained "\<\d\+\>"
syntax match ladderAddress contained "%[IQM]X\=\d\+\%(\.\d\+\)\="
syntax match ladderDuration contained "\<T\%(IME\)\=#\w\+"
syntax match ladderPreset contained "(\s*\zsP[TV]\ze\s*:="
syntax keyword ladderKeyword contained AT
syntax keyword ladderType contained BOOL TON TOF TP CTU CTD SR RS
syntax keyword ladderBoolean contained TRUE FALSE
" An alias is a comment right after a name, without a blank in it.
syntax match ladderAlias contained "(\*\s*[A-Za-z0-9_./-]\{1,32}\s*\*)"

" A label before its rung.
syntax match ladderLabel "^\s*\zs\h\w*\ze\s*:"

" The lines of rungs: a name line has names and vertical links, a wire line the others. What comes later wins where both fit.
syntax case match
syntax match ladderRung "^[|+].*$" contains=ladderWire,ladderLink,ladderJoint,ladderOperand,ladderContact,ladderCoil,ladderBlock,ladderJump,ladderReturn,ladderRail,ladderError
syntax match ladderError contained "[^ ]"
syntax match ladderWire contained "-\+"
syntax match ladderLink contained "|"
syntax match ladderJoint contained "+"
syntax match ladderOperand contained "\<\h\w*\%(\.Q1\=\)\=\c"
syntax match ladderContact contained "|[ /PN]|"
syntax match ladderCoil contained "([ /SRPN])"
syntax match ladderBlock contained "|IN TON Q|\||IN TOF Q|\||IN TP  Q|\||CU CTU Q|\||CD CTD Q|\||S1 SR Q1|\||S  RS Q1|"
syntax match ladderBlock contained "|R       |\||LD      |\||R1      |"
syntax match ladderJump contained ">>" nextgroup=ladderTarget
syntax match ladderTarget contained "\h\w*"
syntax match ladderReturn contained "<RETURN>"
syntax match ladderRail contained "^[|+]\|\%121c[|+]"

highlight default link ladderComment Comment
highlight default link ladderStructure Structure
highlight default link ladderName Identifier
highlight default link ladderAlias SpecialComment
highlight default link ladderKeyword Keyword
highlight default link ladderType Type
highlight default link ladderBoolean Boolean
highlight default link ladderNumber Number
highlight default link ladderAddress Constant
highlight default link ladderDuration Number
highlight default link ladderPreset Keyword
highlight default link ladderLabel Label
highlight default link ladderError Error
highlight default link ladderWire Delimiter
highlight default link ladderLink Operator
highlight default link ladderJoint Operator
highlight default link ladderOperand Identifier
highlight default link ladderContact Function
highlight default link ladderCoil Statement
highlight default link ladderBlock Type
highlight default link ladderJump Label
highlight default link ladderTarget Label
highlight default link ladderReturn Label
highlight default link ladderRail Delimiter

let b:current_syntax = 'ladder'
