autocmd BufRead,BufNewFile *.poets setfiletype poets
