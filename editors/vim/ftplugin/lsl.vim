" :make says why the script isn't accepted. g:dishhollow names the folder with tools/explain; it is found without it
" where this file is in that folder, or is a link to it.
let s:folder = get(g:, 'dishhollow', fnamemodify(resolve(expand('<sfile>:p')), ':h:h:h:h'))
if executable(s:folder . '/tools/explain')
  let &l:makeprg = s:folder . '/tools/explain %:S'
endif
setlocal errorformat=%f:%l:%c:\ error:\ %m,bad\ script\ \"%f\"\ %l:%c\ %m,%-G%.%#
setlocal commentstring=//%s
