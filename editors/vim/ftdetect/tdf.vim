" Vim takes *.tdf for AHDL, so the type is set anew.
autocmd BufRead,BufNewFile *.tdf set filetype=tdf
