autocmd BufNewFile,BufRead *.a51,*.A51 setfiletype m51
autocmd BufNewFile,BufRead *.inc if search("\\c^\\s*\\k\\+\\s\\+\\(equ\\|data\\|bit\\|xdata\\)\\>", "nw") | setfiletype m51 | endif
