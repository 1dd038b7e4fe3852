" Vim compiler file for scripts of the workbench: `:make` checks the script, `:make --sets` with this option.
" The program is `workbench`, or what g:workbench_program names.
if exists('current_compiler')
  finish
endif
let current_compiler = 'workbench'

if exists(':CompilerSet') != 2
  command -nargs=* CompilerSet setlocal <args>
endif

let s:program = get(g:, 'workbench_program', 'workbench')
execute 'CompilerSet makeprg=' . escape(shellescape(s:program) . ' check $* %:S', ' \|"')

" A message with a line is one to go to. Those of the whole script, notes and help are shown beside them, and so are rows of heaps with a
" leak or a panic, and of sets that weren't tried. All else is left out: the report, in which `print` lines may hold anything, and lines of
" the script.
CompilerSet errorformat=
  \%-Gprint\ %.%#,
  \%f:%l:\ %m,
  \%-G%.%#what\ shorter\ heaps\ refuse\ first,
  \%+G%.%#.oom:\ %.%#,
  \%+G\ \ \ \ %*\\d\ to\ %*\\d\ bytes%.%#,
  \%+G\ \ \ \ no\ attempt\ that%.%#,
  \%+Gnote:\ %.%#,
  \%+Ghelp:\ %.%#,
  \%+Gerror:\ %.%#,
  \%-G%.%#
