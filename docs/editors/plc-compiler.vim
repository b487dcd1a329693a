" Judges the file in the editor: what stays open becomes a list of places. Copy to ~/.vim/compiler/plc.vim; then
" `:compiler plc` once, `:make` after a change, and `:cnext` from place to place. docs/tools.md says more.

if exists("current_compiler")
  finish
endif
let current_compiler = "plc"

CompilerSet makeprg=plc-show\ --plain\ %:S
" A note stands beside the line before it, and is no fault of its own.
CompilerSet errorformat=%I%f:%l:\ note:\ %m,%f:%l:\ %m
