" A query file of tom.
if exists('b:current_syntax')
    finish
endif
syntax iskeyword @,48-57,_,-
syntax match tomComment /#.*/
syntax match tomVariable /?[A-Za-z_][A-Za-z0-9_-]*/
syntax match tomQuery /\<query\>\ze\s\+[A-Za-z_]/
syntax keyword tomPast prev wprev once historically since
syntax keyword tomAhead next wnext eventually always until
syntax keyword tomTruth true false
syntax match tomJoin /[|&]/
" What stands in brackets are atoms, whatever their names.
syntax region tomAtoms matchgroup=Delimiter start=/\[/ end=/\]/ contains=tomVariable,tomComment
highlight default link tomComment Comment
highlight default link tomVariable Identifier
highlight default link tomQuery Statement
highlight default link tomPast Keyword
highlight default link tomAhead Keyword
highlight default link tomTruth Boolean
highlight default link tomJoin Operator
let b:current_syntax = 'tomqueries'
