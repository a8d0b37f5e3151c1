autocmd BufRead,BufNewFile *.pks set filetype=pks
