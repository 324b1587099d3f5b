autocmd BufRead,BufNewFile *.alg setfiletype alg
