" Colours the files of plc: the words of the language, the claims, the outline, and comments.
" Copy to ~/.vim/syntax/plc.vim; docs/tools.md says how Vim knows which files these are.

if exists("b:current_syntax")
  finish
endif

syntax case match
" A name may hold letters, digits and _ alone.
syntax iskeyword @,48-57,_

syntax keyword plcDeclaration struct shared call use init op outline
syntax keyword plcType ptr data
syntax keyword plcScheme hazard epoch thread
syntax keyword plcGhost ghost
syntax keyword plcStatement atomic loop break return skip choose during assume
syntax keyword plcConditional if else
syntax keyword plcLabel label
syntax keyword plcOperator new cas or all not mark unmark marked unmarked
syntax keyword plcConstant null me none
syntax keyword plcOutline inv over at depth
syntax keyword plcClaim active
syntax keyword plcRetire retire retired

syntax match plcNumber "\<\%(0\|[1-9][0-9]*\)\>"
syntax match plcSymbol ":=\|?=\|==\|!=\|>=\|<"
syntax match plcComment "//.*$" contains=plcTodo,@Spell
syntax keyword plcTodo TODO FIXME contained

" Only blocks fold and nest, as in the grammar.
syntax region plcBlock start="{" end="}" transparent fold

highlight default link plcDeclaration Keyword
highlight default link plcType Type
highlight default link plcScheme StorageClass
highlight default link plcGhost PreProc
highlight default link plcStatement Statement
highlight default link plcConditional Conditional
highlight default link plcLabel Label
highlight default link plcOperator Operator
highlight default link plcConstant Constant
highlight default link plcOutline PreProc
highlight default link plcClaim Special
highlight default link plcRetire Function
highlight default link plcNumber Number
highlight default link plcSymbol Operator
highlight default link plcComment Comment
highlight default link plcTodo Todo

let b:current_syntax = "plc"
