autocmd BufRead,BufNewFile *.m3 setfiletype m3
