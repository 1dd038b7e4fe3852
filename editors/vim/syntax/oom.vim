" Vim syntax file for scripts of the workbench
" `./tools/dev editors` compares its words with the tables of crates/wb_lines.
if exists('b:current_syntax')
  finish
endif
syntax case match
" a first word that begins no line; of rules that fit the same word the last one holds
syntax match oomUnknown /^\s*\zs\S\+/
" the first words of lines
syntax match oomStructure /^\s*\zs\%(class\|op\|proc\)\ze\%(\s\|$\)/
syntax match oomDeclaration /^\s*\zs\%(buf\|field\|int\|ptr\|view\)\ze\%(\s\|$\)/
syntax match oomCondition /^\s*\zs\%(if\)\ze\%(\s\|$\)/
syntax match oomBlock /^\s*\zs\%(repeat\|trap\)\ze\%(\s\|$\)/
syntax match oomStatement /^\s*\zs\%(add\|alloc\|allocl\|alloclen\|append\|call\|callto\|check\|checkall\|construct\|copy\|delete\|deltext\|failevery\|failnext\|free\|getlen\|getmax\|hnew\|hnewl\|hrealloc\|insert\|leave\|leaveiferror\|leaveifnull\|left\|load\|markend\|mid\|new\|newleave\|null\|pop\|popcheck\|popdestroy\|print\|push\|pushobj\|pushop\|realloc\|reallocl\|return\|right\|set\|setlength\|store\)\ze\%(\s\|$\)/
syntax match oomStructure /^\s*\zs\%(construct\|destroy\)\ze\s*$/
syntax match oomCondition /^\s*\zs\%(else\)\ze\s*$/
syntax match oomBlock /^\s*\zs\%(end\)\ze\s*$/
syntax match oomStatement /^\s*\zs\%(available\|compress\|failnone\|heap\|mark\|return\)\ze\s*$/
" further words
syntax match oomKeyword /\%(^\s*\%(if\)\s\+\)\@<=\%(eq\|less\|null\|some\)\ze\%(\s\|$\)/
syntax match oomSelf /\s\@<=self\ze\%([.[:space:]]\|$\)/
syntax match oomKind /\%(\s\a\w*:\)\@<=\a\w*\ze\%(\s\|$\)/
" names, where they are declared and where they are used
syntax match oomBody /\%(^\s*\%(op\|proc\)\s\+\)\@<=\a\w*/
syntax match oomClass /\%(^\s*\%(class\)\s\+\)\@<=\a\w*/
syntax match oomLocal /\%(^\s*\%(buf\|field\|int\|ptr\|view\)\s\+\)\@<=\a\w*/
syntax match oomClass /\%(^\s*\%(field\|new\|newleave\|ptr\)\s\+\S\+\s\+\)\@<=\a\w*/
syntax match oomBody /\%(^\s*\%(pushop\)\s\+\S\+\s\+\)\@<=\a\w*/
syntax match oomBody /\%(^\s*\%(call\)\s\+\)\@<=\a\w*/
syntax match oomBody /\%(^\s*\%(callto\)\s\+\S\+\s\+\)\@<=\a\w*/
" fields, numbers, texts and comments
syntax match oomField /\%(\s\a\w*\.\)\@<=\a\w*\ze\%(\s\|$\)/
syntax match oomNumber /\s\@<=-\?\d\{1,9}\ze\%(\s\|$\)/
syntax match oomText /"[ !#-~]*"/
syntax match oomComment /^\s*#.*$/ contains=oomTodo
syntax keyword oomTodo TODO FIXME XXX contained

highlight default link oomUnknown Error
highlight default link oomStructure Structure
highlight default link oomDeclaration Type
highlight default link oomCondition Conditional
highlight default link oomBlock Repeat
highlight default link oomStatement Statement
highlight default link oomKeyword Operator
highlight default link oomSelf Special
highlight default link oomKind Type
highlight default link oomLocal Identifier
highlight default link oomClass Type
highlight default link oomBody Function
highlight default link oomField Identifier
highlight default link oomNumber Number
highlight default link oomText String
highlight default link oomComment Comment
highlight default link oomTodo Todo

let b:current_syntax = 'oom'
