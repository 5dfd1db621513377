" Types, waits and reads in Vim with the configuration of docs/EDITORS.md for ALE. It writes a line for each thing that
" it saw into the file that $SAID names.
if empty(globpath(&packpath, 'pack/*/start/*/autoload/ale.vim') . globpath(&runtimepath, 'autoload/ale.vim'))
  qa!
endif

let s:said = []

function s:say(...)
  call add(s:said, join(map(copy(a:000), {_, it -> type(it) == v:t_string ? it : string(it)}), ' '))
endfunction

function s:wait(what, holds)
  for s:moment in range(600)
    if a:holds() | break | endif
    sleep 50m
  endfor
  call s:say(a:what, a:holds() ? 'true' : 'false')
endfunction

function s:faults()
  return getloclist(0)
endfunction

" Whether a window or a message has some words.
function s:shows(words)
  let l:texts = map(getwininfo(), {_, it -> join(getbufline(it.bufnr, 1, '$'))})
  return join(l:texts + [execute('messages')]) =~ a:words
endfunction

edit trial.lsl
call s:say('filetype', &filetype)
call ale#Queue(0)
call s:wait('fault', {-> !empty(s:faults())})
for s:it in s:faults()
  call s:say('fault', s:it.lnum, s:it.col, s:it.text)
endfor
call setline(11, '        llSay(0, text(count));')
call ale#Queue(0)
call s:wait('mended', {-> empty(s:faults())})
call cursor(12, 10)
ALEHover
call s:wait('hover', {-> s:shows('owner alone')})
call cursor(12, 21)
ALEGoToDefinition
call s:wait('definition', {-> line('.') == 4})
call writefile(s:said, $SAID)
qa!
