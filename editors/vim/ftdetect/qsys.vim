" Decks of Q-systems are files NAME.qs.
autocmd BufNewFile,BufRead *.qs setfiletype qsys
