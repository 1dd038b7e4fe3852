" Vim compiler file for scripts of the workbench: after `:compiler workbench_lengths`, `:make` asks how the script ends in heaps of every
" length. The program and the messages are those of compiler/workbench.vim.
if exists('current_compiler')
  finish
endif
runtime compiler/workbench.vim
let current_compiler = 'workbench_lengths'

execute 'CompilerSet makeprg=' . escape(substitute(&makeprg, ' check \$\*', ' lengths $*', ''), ' \|"')
