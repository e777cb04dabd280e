" Vim syntax file: schedules of rbl.
if exists('b:current_syntax')
  finish
endif

syntax case match

syntax match rblscheduleProcess /^\s*\a\w*/ contains=rblscheduleAll
syntax keyword rblscheduleAll all contained
syntax match rblscheduleCount /\<\d\+\>/
syntax match rblscheduleComment /#.*/

highlight default link rblscheduleProcess Identifier
highlight default link rblscheduleAll Keyword
highlight default link rblscheduleCount Number
highlight default link rblscheduleComment Comment

let b:current_syntax = 'rblschedule'
