" Files that are scripts of the workbench.
autocmd BufNewFile,BufRead *.oom setfiletype oom
