autocmd BufNewFile,BufRead *.adl setfiletype luo
