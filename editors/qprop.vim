" Syntax of qprop documents. Put this file into ~/.vim/syntax, and into ~/.vim/ftdetect/qprop.vim the line
"   autocmd BufRead,BufNewFile *.qprop set filetype=qprop
if exists("b:current_syntax")
  finish
endif

syntax case match
syntax match qpropComment "^[ \t\r]*#.*$"
syntax match qpropStatement "^[ \t\r]*\zs\%(input\|derived\|set\|add\|drop\|define\|settle\|do\|take\|turn\)\>"
syntax keyword qpropKeyword rank over from
syntax keyword qpropConditional if then else
syntax keyword qpropOperatorWord and or not
syntax keyword qpropFunction len number sum count min max
syntax keyword qpropType int text
syntax match qpropNumber "\<\d\+\>"
syntax match qpropOperator "[:=,()+*/%<>-]"
syntax match qpropEscape contained +\\\%(["\\nt]\|x[0-7]\x\)+
syntax region qpropString start=+"+ skip=+\\.+ end=+"+ oneline contains=qpropEscape

highlight default link qpropComment Comment
highlight default link qpropStatement Statement
highlight default link qpropKeyword Keyword
highlight default link qpropConditional Conditional
highlight default link qpropOperatorWord Operator
highlight default link qpropFunction Function
highlight default link qpropType Type
highlight default link qpropNumber Number
highlight default link qpropOperator Operator
highlight default link qpropEscape SpecialChar
highlight default link qpropString String

let b:current_syntax = "qprop"
