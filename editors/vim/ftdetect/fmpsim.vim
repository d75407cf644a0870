" Which files have the texts of fmpsim: those that are called as in its examples.
autocmd BufNewFile,BufRead machine.cfg,events.txt,scripts.txt,trace.txt,*.questions,*.fmpsim set filetype=fmpsim
