" Vim compiler file: behind `:compiler rbl`, `:make` judges the source that is open, or runs it over the schedule that is open, which has its name,
" and goes to what is refused. `g:rbl_program` may name the program.
if exists('current_compiler')
  finish
endif
let current_compiler = 'rbl'
let s:options = &cpoptions
set cpoptions&vim

if exists(':CompilerSet') != 2
  command -nargs=* CompilerSet setlocal <args>
endif

let s:program = escape(get(g:, 'rbl_program', 'rbl'), ' \|"')
if expand('%:e') ==# 'schedule'
  execute 'CompilerSet makeprg=' . s:program . '\ run\ %:p:r:S.rbl\ %:S'
else
  execute 'CompilerSet makeprg=' . s:program . '\ check\ %:S'
endif
" Lines with a place; a file that is too long, or that can't be read; all else is left out.
CompilerSet errorformat=%f:%l:%c:\ %m,%f:\ L0:\ %m,rbl:\ %m,%-G%.%#

let &cpoptions = s:options
unlet s:options s:program
