" Writes for each place of a list, PATH<Tab>LINE<Tab>COLUMN, the syntax group of Vim that is there.
" The variables $PLACES, $GROUPS and $EDITOR_FILES name the list, what is written, and the folder of the syntax.
let &runtimepath = $EDITOR_FILES . ',' . $VIMRUNTIME
filetype plugin on
syntax on
let s:found = []
let s:last = ''
for s:row in readfile($PLACES)
  let [s:path, s:line, s:column] = split(s:row, "\t")
  if s:path !=# s:last
    execute 'silent edit! ' . fnameescape(s:path)
    let s:last = s:path
  endif
  call add(s:found, &filetype . ' ' . synIDattr(synID(s:line, s:column, 1), 'name'))
endfor
call writefile(s:found, $GROUPS)
qall!
