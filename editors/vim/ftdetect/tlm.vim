autocmd BufNewFile,BufRead *.tlm setfiletype tlm
