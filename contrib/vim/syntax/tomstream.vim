" A stream of tom in text form.
if exists('b:current_syntax')
    finish
endif
syntax iskeyword @,48-57,_,-
syntax match tomComment /#.*/
syntax match tomSnap /^\s*\(snap\|individual\|model\)\>/
syntax match tomPredicate /[A-Za-z_][A-Za-z0-9_-]*\ze\s*(/
highlight default link tomComment Comment
highlight default link tomSnap Statement
highlight default link tomPredicate Type
let b:current_syntax = 'tomstream'
