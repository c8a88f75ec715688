" Vim syntax of PRET-C: the tokens are those of docs/language.md, "Tokens".
if exists("b:current_syntax")
  finish
endif

syntax case match

syntax keyword pretcType int void
syntax keyword pretcInterface ReactiveInput ReactiveOutput
syntax keyword pretcConditional if else
syntax keyword pretcRepeat while
syntax keyword pretcStatement return
" what takes time
syntax keyword pretcTime EOT PAR abort weak when pre

syntax match pretcOperator "<<\|>>\|<=\|>=\|==\|!=\|&&\|||\|[-+*%<>!~&|^=]"
syntax match pretcOperator "/\ze[^/*]"
syntax match pretcBound "#"
" a run that begins with a digit: a number, or no token at all
syntax match pretcBadNumber "\<\d\w*\>"
syntax match pretcNumber "\<\%(0\|[1-9]\d*\|0x\x\+\)\>"
syntax match pretcFunction "\<\h\w*\ze\s*("
syntax match pretcBadByte "[@$`\\?.:'\"]"

" comments of both kinds end where the language ends them, and don't nest
syntax region pretcComment start="/\*" end="\*/"
syntax match pretcComment "//.*$"

highlight default link pretcType Type
highlight default link pretcInterface StorageClass
highlight default link pretcConditional Conditional
highlight default link pretcRepeat Repeat
highlight default link pretcStatement Statement
highlight default link pretcTime Keyword
highlight default link pretcOperator Operator
highlight default link pretcBound Special
highlight default link pretcNumber Number
highlight default link pretcBadNumber Error
highlight default link pretcBadByte Error
highlight default link pretcFunction Function
highlight default link pretcComment Comment

let b:current_syntax = "pretc"
