" The trial of tools/check-editors in Vim and Neovim, where a file is open and its folder has a stand-in for fing-show. It calls
" `:compiler fing` and `:make`, with the stand-in under g:fing_show, and then by its own name on the path. The file `found`
" gets, for both, the valid entries of the list as FILE:LINE:COLUMN: TEXT, and the offset of the cursor.
let &runtimepath = expand('<sfile>:p:h:h') . '/editors/vim,' . &runtimepath
let found = []
for setting in ['let g:fing_show = getcwd() . "/fing-show"', 'unlet g:fing_show | let $PATH = getcwd() . ":" . $PATH']
  execute setting
  compiler fing
  call cursor(1, 1)
  make
  let entries = filter(getqflist(), 'v:val.valid')
  call map(entries, 'fnamemodify(bufname(v:val.bufnr), ":t") . ":" . v:val.lnum . ":" . v:val.col . ": " . v:val.text')
  call add(found, [entries, line2byte('.') + col('.') - 2])
endfor
call writefile([json_encode(found)], 'found')
qall!
