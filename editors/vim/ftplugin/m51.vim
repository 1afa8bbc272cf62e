" Sources of m51: comments, names with a question mark, and the compiler.
if exists('b:did_ftplugin')
  finish
endif
let b:did_ftplugin = 1
setlocal comments=:; commentstring=;%s iskeyword=@,48-57,_,?
setlocal noexpandtab shiftwidth=8 softtabstop=0 tabstop=8
compiler m51
let b:undo_ftplugin = 'setlocal comments< commentstring< iskeyword< expandtab< shiftwidth< softtabstop< tabstop<'
