" Looks at the files for Vim: vim -es -u NONE -i NONE --cmd 'let program = ..' --cmd 'let work = ..' -S .ci/editors.vim, at the
" top of the repository. What fails is written to WORK/failures, one line each.
set nocompatible encoding=utf-8
let g:qsys_program = program
execute 'set runtimepath^=' . getcwd() . '/editors/vim'
filetype plugin indent on
syntax on
let failures = []

" Colours: the first place of each text has this group.
edit .ci/editors.qs
if &filetype !=# 'qsys'
  call add(failures, 'the type of a deck is ' . &filetype)
endif
for [text, group] in [['comment, of', 'Comment'], ['-SYSTEME-', 'Section'], ['NAMED', 'Name'], ['"a # and', 'String'],
      \ ['# and', 'String'], ['-DANS-', 'Condition'], ['-1-', 'Node'], ['A*', 'LabelVariable'], ['U*12', 'ForestVariable'],
      \ ['12(', 'ForestVariable'], ['I*', 'TreeVariable'], ['G*', 'BadVariable'], ['BA(', 'Label'], ['==', 'Arrow'],
      \ ['-UNIQUE-', 'Mark'], ['-EGAL-', 'Condition'], ['-VERSION-', 'Section'], ['ÉTÉ', 'Label'], ["'EST", 'Label'],
      \ ['"left', 'OpenString'], ['-FIN-', 'Section']]
  call cursor(1, 1)
  let [line, column] = searchpos('\C\V' . escape(text, '\'), 'c')
  let found = synIDattr(synID(line, column, 1), 'name')
  if found !=# 'qsys' . group
    call add(failures, text . ' is ' . found . ', not qsys' . group)
  endif
endfor

" Indentation: each deck, with all its lines at the left, is laid out again as it stands; but for those that show that layout
" means nothing.
for deck in filter(glob('examples/*.qs', 0, 1), 'v:val !~# "/\\%(refused-\\|spelling\\|comments\\)"')
  execute 'edit' deck
  let wanted = getline(1, '$')
  silent %s/^\s\+//e
  normal! gg=G
  if getline(1, '$') !=# wanted
    call add(failures, deck . ' is indented otherwise')
  endif
  edit!
endfor

" Nothing of a deck that is accepted is shown as a fault.
for deck in filter(glob('examples/*.qs', 0, 1), 'v:val !~# "/refused-"')
  execute 'edit' deck
  for number in range(1, line('$'))
    for column in range(1, min([col([number, '$']) - 1, 400]))
      if synIDattr(synID(number, column, 1), 'name') =~# 'qsysOpenString\|qsysBadVariable'
        call add(failures, deck . ' has a fault at ' . number . ' ' . column)
        break
      endif
    endfor
  endfor
endfor

" A refusal leads to its line and column, in characters, behind accents and a tab.
let decks = [[['# ', '-SYSTEME- S.', 'GN(I*) == P(I*,J*).', '-GRAPHE- -1- A -2-. -FIN-'], 'J*).'],
      \ [['-SYSTEME- S.', '', "ÉÉ(\tI*) == P(I*,K*).", '-GRAPHE- -1- A -2-. -FIN-'], 'K*).']]
for [lines, place] in decks
  call writefile(lines, work . '/fault.qs')
  execute 'edit!' work . '/fault.qs'
  call cursor(1, 1)
  silent make
  let rest = strpart(getline('.'), col('.') - 1)
  if rest !=# place
    call add(failures, 'a refusal leads to ' . line('.') . ': ' . rest)
  endif
endfor
call writefile(['A == B.'], work . '/fault.qs')
execute 'edit!' work . '/fault.qs'
if &commentstring !=# '# %s'
  call add(failures, 'comments are ' . &commentstring)
endif

call writefile(failures, work . '/failures')
qall!
