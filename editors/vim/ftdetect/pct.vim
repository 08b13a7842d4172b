autocmd BufNewFile,BufRead *.pct set filetype=pct
