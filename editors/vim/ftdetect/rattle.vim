autocmd BufRead,BufNewFile *.rt setfiletype rattle
autocmd BufRead,BufNewFile *.antt setfiletype antt
