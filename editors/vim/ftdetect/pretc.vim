" Vim itself takes .pc for Pro*C, so the type is set, not only where there is none
autocmd BufRead,BufNewFile *.pc set filetype=pretc
