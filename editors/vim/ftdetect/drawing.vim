" made by tools/pages
autocmd BufNewFile,BufRead *.drawing setfiletype drawing
