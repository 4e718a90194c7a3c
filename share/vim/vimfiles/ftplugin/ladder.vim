" Settings for program texts of ladder: no tabs, no broken lines, and a ruler at the right rail.
if exists('b:did_ftplugin')
  finish
endif
let b:did_ftplugin = 1

setlocal expandtab textwidth=0 nowrap colorcolumn=121
setlocal commentstring=(*\ %s\ *) comments=
let b:undo_ftplugin = 'setlocal expandtab< textwidth< wrap< colorcolumn< commentstring< comments<'
