" Sources and schedules of rbl.
autocmd BufNewFile,BufRead *.rbl setfiletype rbl
autocmd BufNewFile,BufRead *.schedule setfiletype rblschedule
