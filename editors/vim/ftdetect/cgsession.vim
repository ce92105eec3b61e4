" Sessions of cg. Vim takes *.cg for Cg shaders otherwise.
autocmd BufNewFile,BufRead *.cg set filetype=cgsession
