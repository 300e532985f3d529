" An ontology of tom.
if exists('b:current_syntax')
    finish
endif
syntax iskeyword @,48-57,_,-
syntax match tomComment /#.*/
syntax match tomDeclaration /^\s*\(concept\|role\|individual\)\>/
syntax match tomInclusion /^\s*\(sub\|subrole\)\>/
syntax match tomClash /^\s*\(disjoint\|disjointrole\)\>/
syntax keyword tomOperator some inv
highlight default link tomComment Comment
highlight default link tomDeclaration Type
highlight default link tomInclusion Statement
highlight default link tomClash Exception
highlight default link tomOperator Operator
let b:current_syntax = 'tomontology'
