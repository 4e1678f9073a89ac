autocmd BufRead,BufNewFile *.nova,*.uasm setfiletype nova
" An assembly text begins with `params` and a digit.
autocmd BufRead *.asm if getline(1) =~# '^params [0-8]$' | set filetype=nova | endif
autocmd FileType nova compiler nova
