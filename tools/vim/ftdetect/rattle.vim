" Files of Rattle: code with contracts, definitions and proofs.
autocmd BufNewFile,BufRead *.rt setfiletype rattle
autocmd BufNewFile,BufRead *.antt setfiletype antt
