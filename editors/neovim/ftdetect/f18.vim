autocmd BufRead,BufNewFile *.f18 setfiletype f18
