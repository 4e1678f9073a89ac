" Comments and indentation of Nova.
if exists("b:did_ftplugin")
  finish
endif
let b:did_ftplugin = 1
setlocal commentstring=//\ %s comments=:// shiftwidth=2 softtabstop=2 expandtab autoindent smartindent
let b:undo_ftplugin = "setlocal commentstring< comments< shiftwidth< softtabstop< expandtab< autoindent< smartindent<"
