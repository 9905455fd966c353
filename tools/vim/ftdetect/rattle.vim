autocmd BufNewFile,BufRead *.rt setfiletype rattle
autocmd BufNewFile,BufRead *.antt setfiletype antt
