" Syntax of decks of Q-systems (qsys(5)).
if exists('b:current_syntax')
  finish
endif

syntax case match
syntax sync minlines=200

" A label, bare or between quotes on one line with a quote inside written twice. In it, letters, digits, "_", "'" and what is
" beyond ASCII.
syntax match qsysLabel /[[:alnum:]_'\x80-\U10FFFF]\+/
syntax match qsysString /"\%([^"]\|""\)*"/
syntax match qsysOpenString /"\%([^"]\|""\)*$/

" A variable: a letter and a star, and a number from 1 to 99 behind it.
syntax match qsysLabelVariable /[A-F]\*\%([1-9]\d\?\)\?/
syntax match qsysTreeVariable /[I-N]\*\%([1-9]\d\?\)\?/
syntax match qsysForestVariable /[U-Z]\*\%([1-9]\d\?\)\?/
syntax match qsysBadVariable /[G-HO-T]\*/

" A node, and the words between two dashes.
syntax match qsysNode /-[1-9]\d*-/
syntax match qsysSection /-\%(SYSTEME\|GRAPHE\|FIN\|PHRASES\|VERSION\)-/
syntax match qsysCondition /-\%(DANS\|HORS\|NON\|ET\|OU\|EGAL\)-/
syntax match qsysMark /-UNIQUE-/
syntax match qsysAnswer /-\%(VIDE\|LIMITE\|REFUS\|FAIT\|SUITE\|NIVEAUX\)-/

" The name of a grammar.
syntax match qsysName /\%(-SYSTEME-\s*\)\@<=[[:alnum:]_'\x80-\U10FFFF]\+/

syntax match qsysArrow /==/
syntax match qsysOperator "[+/]"
syntax match qsysStop /\./

syntax keyword qsysTodo TODO FIXME contained
syntax match qsysComment /#.*$/ contains=qsysTodo,@Spell

highlight default link qsysComment Comment
highlight default link qsysTodo Todo
highlight default link qsysString String
highlight default link qsysOpenString Error
highlight default link qsysBadVariable Error
highlight default link qsysLabelVariable Identifier
highlight default link qsysTreeVariable Identifier
highlight default link qsysForestVariable Identifier
highlight default link qsysNode Number
highlight default link qsysSection Statement
highlight default link qsysCondition Conditional
highlight default link qsysMark StorageClass
highlight default link qsysAnswer Special
highlight default link qsysName Function
highlight default link qsysArrow Operator
highlight default link qsysOperator Operator
highlight default link qsysStop Delimiter

let b:current_syntax = 'qsys'
