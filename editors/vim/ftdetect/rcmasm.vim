" The text form of region-checked modules: .asm files whose text declares a function as this form does.
autocmd BufRead,BufNewFile *.asm if search('^fn [A-Za-z_]\w*[\[(]', 'nw') | set filetype=rcmasm | endif
