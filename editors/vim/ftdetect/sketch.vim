" made by tools/pages
autocmd BufNewFile,BufRead *.sketch setfiletype sketch
