autocmd BufNewFile,BufRead *.occ setfiletype occam
