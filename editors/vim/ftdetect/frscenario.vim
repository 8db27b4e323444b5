autocmd BufRead,BufNewFile *.scenario,scenario setfiletype frscenario
autocmd BufRead,BufNewFile * if getline(1) =~# '^frscenario [123]$' | setfiletype frscenario | endif
