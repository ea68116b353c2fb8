" Formats BUILD files by buildifier when they are written, with WORKSPACE, MODULE.bazel and *.BUILD, in Vim 8 or later and in Neovim.
"
" Set up: copy this file into ~/.vim/plugin/ (Neovim: ~/.config/nvim/plugin/). With `let g:buildifier_bzl = 1` in the vimrc .bzl files
" are formatted too. A text that buildifier refuses is written as it is; the refusal is shown after that, and is an entry of the
" quickfix list (:cc goes there). :Buildifier formats any buffer without writing.
if exists('g:loaded_buildifier')
  finish
endif
let g:loaded_buildifier = 1

" What buildifier refused is the one entry of a list with this title; where it refuses nothing any more that list is emptied.
function! s:list(lines) abort
  if empty(a:lines)
    if get(getqflist({'title': 1}), 'title', '') ==# 'buildifier'
      call setqflist([], 'r')
    endif
    return
  endif
  let l:entry = {'bufnr': bufnr('%'), 'text': a:lines[0], 'type': 'E'}
  let l:place = matchlist(a:lines[0], '^<stdin>:\(\d\+\):\(\d\+\): \(.*\)')
  if !empty(l:place)
    " buildifier counts characters, and the list counts bytes
    let l:column = byteidx(getline(l:place[1]), l:place[2] - 1) + 1
    call extend(l:entry, {'lnum': str2nr(l:place[1]), 'col': max([l:column, 1]), 'text': l:place[3]})
  endif
  call setqflist([l:entry], 'r')
  call setqflist([], 'a', {'title': 'buildifier'})
endfunction

function! s:format() abort
  let b:buildifier_refusal = ''
  let l:old = getline(1, '$')
  let l:type = bufname('%') =~# '\.bzl$' ? 'bzl' : 'build'
  let l:command = 'buildifier --type=' . l:type
  " what Vim takes of a command has its standard error too, and a note of an accepted text is no part of that
  let l:new = systemlist('sh -c "' . l:command . ' 2> /dev/null"', l:old)
  let l:fails = v:shell_error
  let l:refusal = l:fails ? systemlist(l:command, l:old) : []
  call s:list(l:refusal)
  if l:fails
    let b:buildifier_refusal = 'buildifier: ' . get(l:refusal, 0, '')
    return
  endif
  if l:new ==# l:old
    return
  endif
  let l:view = winsaveview()
  silent keepjumps call setline(1, l:new)
  if len(l:new) < len(l:old)
    silent keepjumps execute (len(l:new) + 1) . ',$delete _'
  endif
  call winrestview(l:view)
endfunction

function! s:report() abort
  if !empty(get(b:, 'buildifier_refusal', ''))
    redraw | echohl WarningMsg | echomsg b:buildifier_refusal | echohl None
  endif
endfunction

command! Buildifier call s:format() | call s:report()

" The line that Vim shows of a write would cover a refusal that is shown before it; the redraw takes that line away.
augroup buildifier
  autocmd!
  autocmd BufWritePre BUILD,BUILD.bazel,WORKSPACE,WORKSPACE.bazel,MODULE.bazel,*.BUILD call s:format()
  autocmd BufWritePost BUILD,BUILD.bazel,WORKSPACE,WORKSPACE.bazel,MODULE.bazel,*.BUILD call s:report()
  autocmd BufWritePre *.bzl if get(g:, 'buildifier_bzl', 0) | call s:format() | endif
  autocmd BufWritePost *.bzl if get(g:, 'buildifier_bzl', 0) | call s:report() | endif
augroup END
