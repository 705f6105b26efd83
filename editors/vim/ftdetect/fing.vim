autocmd BufNewFile,BufRead *.fing setfiletype fing
