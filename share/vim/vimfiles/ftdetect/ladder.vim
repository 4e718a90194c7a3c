" A file *.ld is a program text of ladder if its declarations begin as such a text's do. Otherwise it stays what Vim takes it for, the
" script of a linker.
autocmd BufNewFile,BufRead *.ld
      \ if match(getline(1, 1000), '\c^\s*\%((\*.*\*)\s*\)*VAR\>\s*\%($\|(\*\|//\|\h\)') >= 0
      \ |   set filetype=ladder
      \ | endif
