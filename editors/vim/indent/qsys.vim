" Indentation of decks of Q-systems: what goes on from the line before stands two columns to the right; all else at the left.
if exists('b:did_indent')
  finish
endif
let b:did_indent = 1

setlocal indentexpr=QsysIndent(v:lnum)
setlocal indentkeys=0-,0+,0/,!^F,o,O
setlocal nolisp
let b:undo_indent = 'setlocal indentexpr< indentkeys< lisp<'

if exists('*QsysIndent')
  finish
endif

" What a line says: without quoted labels, a comment, and spaces at its end.
function s:Said(line)
  let said = substitute(a:line, '"\%([^"]\|""\)*"', 'Q', 'g')
  return substitute(substitute(said, '#.*$', '', ''), '\s\+$', '', '')
endfunction

" Whether nothing goes on behind this line: it ends with a full stop, or with -GRAPHE-, -FIN- or -PHRASES-.
function s:Ends(said)
  return a:said =~# '\.$\|-\%(GRAPHE\|FIN\|PHRASES\)-$'
endfunction

function QsysIndent(number)
  let said = s:Said(getline(a:number))
  if said =~# '^\s*-\%(SYSTEME\|GRAPHE\|FIN\|PHRASES\|VERSION\)-'
    return 0
  endif
  " Lines of words stay where they are.
  if index(getline(1, a:number - 1), '-PHRASES-') >= 0
    return -1
  endif
  let before = a:number - 1
  while before > 0 && s:Said(getline(before)) =~# '^\s*$'
    let before -= 1
  endwhile
  return before == 0 || s:Ends(s:Said(getline(before))) ? 0 : shiftwidth()
endfunction
