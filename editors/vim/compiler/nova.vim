" `:compiler nova`, then `:make` checks the file, and `:cnext` goes to the next fault or warning.
if exists("current_compiler")
  finish
endif
let current_compiler = "nova"
CompilerSet makeprg=nova\ check\ %:S
CompilerSet errorformat=%f:%l:%c:\ %trror:\ %m,%f:%l:%c:\ %tarning:\ %m,%f:\ %trror:\ %m,%f:\ %tarning:\ %m,%-G%.%#
