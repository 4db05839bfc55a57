" Outlines and templates of og.
autocmd BufRead,BufNewFile *.og,*.ogt setfiletype og
