" Source of the GA144's nodes: words stand apart by blanks.
if exists("b:did_ftplugin")
  finish
endif
let b:did_ftplugin = 1
setlocal iskeyword=33-126,128-255
setlocal comments=:\\
setlocal commentstring=\\\ %s
let b:undo_ftplugin = "setlocal iskeyword< comments< commentstring<"
