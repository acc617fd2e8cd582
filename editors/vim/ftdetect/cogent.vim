autocmd BufRead,BufNewFile *.cg setfiletype cogent
