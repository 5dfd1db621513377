autocmd BufNewFile,BufRead *.lsl setfiletype lsl
