" Vim syntax file: sources of rbl, both editions.
if exists('b:current_syntax')
  finish
endif

syntax case match

syntax keyword rblDeclaration program process procedure var channel from to size conversation end
syntax keyword rblStatement print call if else while send receive fail
syntax keyword rblRecovery ensure within by error converse prior
syntax keyword rblOperator and or not
" Reserved since schedules use it, though no source can.
syntax keyword rblError all

" A source is of edition 2 exactly if its first token is `edition`.
let s:first = match(getline(1, '$'), '^\s*[^#[:space:]]')
if s:first >= 0 && getline(s:first + 1) =~# '^\s*edition\>'
  syntax keyword rblDeclaration edition
  syntax keyword rblQuantifier every some sum
endif
unlet s:first

syntax match rblNumber /\<\d\+\>/
syntax match rblMark /:=\|<>\|<=\|>=\|[-=<>+*\/%]/
syntax match rblText /"[^"]*"/
syntax match rblError /"[^"]*$/
syntax match rblComment /#.*/ contains=rblTodo
syntax keyword rblTodo TODO FIXME XXX contained

highlight default link rblDeclaration Structure
highlight default link rblStatement Statement
highlight default link rblRecovery Exception
highlight default link rblOperator Operator
highlight default link rblQuantifier Repeat
highlight default link rblNumber Number
highlight default link rblMark Operator
highlight default link rblText String
highlight default link rblError Error
highlight default link rblComment Comment
highlight default link rblTodo Todo

let b:current_syntax = 'rbl'
