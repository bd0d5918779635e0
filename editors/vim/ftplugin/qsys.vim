" Decks of Q-systems: comments, and `:make`, which checks the file and jumps to the place of a refusal. The program is `qsys`,
" or what g:qsys_program says.
if exists('b:did_ftplugin')
  finish
endif
let b:did_ftplugin = 1

setlocal comments=:# commentstring=#\ %s
setlocal expandtab shiftwidth=2 softtabstop=2
setlocal iskeyword=@,48-57,_,39,128-255

" A refusal has a line, a column in characters and a cause, and no name of a file: so that is written before it.
let &l:makeprg = '(printf "\%s:" %:S; ' . get(g:, 'qsys_program', 'qsys') . ' check < %:S \| grep -e "^-REFUS-")'
setlocal errorformat=%f:-REFUS-\ %l\ %c\ %m.,%-G%.%#

" Columns of refusals count characters, those of Vim bytes.
function s:CountBytes()
  let places = getqflist()
  for place in places
    let line = place.valid ? getbufline(place.bufnr, place.lnum) : []
    if !empty(line) && getbufvar(place.bufnr, '&filetype') ==# 'qsys'
      let place.col = byteidx(line[0] . ' ', place.col - 1) + 1
    endif
  endfor
  call setqflist(places, 'r')
endfunction

augroup qsys
  autocmd! QuickFixCmdPost <buffer>
  autocmd QuickFixCmdPost <buffer> call s:CountBytes()
augroup END

let b:undo_ftplugin = 'autocmd! qsys QuickFixCmdPost <buffer> | setlocal comments< commentstring< expandtab< shiftwidth< softtabstop< iskeyword< makeprg< errorformat<'
