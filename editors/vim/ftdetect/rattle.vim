" Rattle's files. To use them in Vim: set runtimepath+=PATH/TO/needlevale/editors/vim
autocmd BufRead,BufNewFile *.rt setfiletype rattle
autocmd BufRead,BufNewFile *.antt setfiletype antt
