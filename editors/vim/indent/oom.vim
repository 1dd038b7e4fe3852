" Vim indent file for scripts of the workbench: the lines of a class, a body or a block are indented, its `else` and `end` are not.
" `./tools/dev editors` compares its words with the tables of crates/wb_lines.
if exists('b:did_indent')
  finish
endif
let b:did_indent = 1

setlocal indentexpr=GetOomIndent(v:lnum) indentkeys=o,O,!^F,0=else,0=end nosmartindent
let b:undo_indent = 'setlocal indentexpr< indentkeys< smartindent<'

if exists('*GetOomIndent')
  finish
endif

let s:more = '^\s*\%(class\%(\s\|$\)\|construct\s*$\|destroy\s*$\|else\s*$\|if\%(\s\|$\)\|op\%(\s\|$\)\|proc\%(\s\|$\)\|repeat\%(\s\|$\)\|trap\%(\s\|$\)\)'
let s:less = '^\s*\%(else\s*$\|end\s*$\)'

function GetOomIndent(number) abort
  let before = prevnonblank(a:number - 1)
  let indent = before == 0 ? 0 : indent(before)
  if before != 0 && getline(before) =~# s:more
    let indent += shiftwidth()
  endif
  if getline(a:number) =~# s:less
    let indent -= shiftwidth()
  endif
  return indent < 0 ? 0 : indent
endfunction
