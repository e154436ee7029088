" Models (.model) and texts of equations (.pbes) of pbsolve. Made by tools/editors/syntax.py.
autocmd BufRead,BufNewFile *.model,*.pbes setfiletype pbsolve
