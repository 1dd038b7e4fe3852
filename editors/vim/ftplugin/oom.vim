" What Vim does in scripts of the workbench: comments, and `:make` by the compiler file beside this.
if exists('b:did_ftplugin')
  finish
endif
let b:did_ftplugin = 1

setlocal commentstring=#\ %s comments=:#
compiler workbench

let b:undo_ftplugin = 'setlocal commentstring< comments< makeprg< errorformat< | unlet! b:current_compiler'
