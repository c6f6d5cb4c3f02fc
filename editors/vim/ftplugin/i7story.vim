" Sources of i7story are indented by tabs: spaces in front of a line are no indent of the language.
if exists("b:did_ftplugin")
	finish
endif
let b:did_ftplugin = 1

setlocal noexpandtab tabstop=4 shiftwidth=0 softtabstop=0 autoindent
setlocal commentstring=[%s] comments= iskeyword+=-,'
setlocal linebreak wrap

let b:undo_ftplugin = "setlocal expandtab< tabstop< shiftwidth< softtabstop< autoindent< commentstring< comments< iskeyword< linebreak< wrap<"
