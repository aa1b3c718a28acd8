" Programs of luo.
if exists('b:current_syntax')
  finish
endif
syntax case match
syntax match luoName /\<\a\w*\>/
syntax match luoTooLong /\<\a\w\{32,}\>/
syntax keyword luoUniverse labelled unlabelled
syntax keyword luoDefinition type measure procedure analyze
syntax keyword luoConstruct epsilon atom product sequence set cycle multiset powerset card
syntax keyword luoStatement begin end case of forall in do skip as
syntax match luoNumber /\<\%(0\|[1-9]\d*\)/
syntax match luoMark /<=\|>=\|\.\.\|[;,=|():]\|\<_\>/
syntax match luoBad /[^ \t\r\n%A-Za-z0-9_;,=|():<>.]/
syntax match luoBad /<=\@!\|>=\@!\|\.\@<!\.\.\@!/
syntax match luoComment /%.*$/
highlight default link luoUniverse PreProc
highlight default link luoDefinition Structure
highlight default link luoConstruct Type
highlight default link luoStatement Statement
highlight default link luoName Identifier
highlight default link luoNumber Number
highlight default link luoMark Delimiter
highlight default link luoComment Comment
highlight default link luoBad Error
highlight default link luoTooLong Error
let b:current_syntax = 'luo'
