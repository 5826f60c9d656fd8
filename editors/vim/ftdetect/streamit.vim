autocmd BufRead,BufNewFile *.str setfiletype streamit
