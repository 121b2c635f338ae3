autocmd BufRead,BufNewFile *.vtl setfiletype vtl
