" Session scripts of Rugcobi.
autocmd BufRead,BufNewFile *.ix setfiletype ix
