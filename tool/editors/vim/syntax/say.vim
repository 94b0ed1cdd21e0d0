" Terms and tests of Cuckooormolu, as docs/LANGUAGE.md has them.
if exists('b:current_syntax')
  finish
endif

" A name may have a dash in it.
syntax iskeyword @,48-57,_,-

syntax keyword sayStatement member members relation relations event events define first when by then
syntax keyword sayStatement add remove given may because
syntax keyword sayPerson me target here someone nobody anyone
syntax keyword sayOperator not and or since once always never previously some every only at least such that
syntax keyword sayOperator is of as both ways denied
syntax keyword sayBoolean true false
syntax keyword sayReserved reach many
syntax match sayStatement "\<keep\ze\s\+denied\>"
syntax match sayStatement "\<said\ze\s*\""
syntax match sayNumber "\<\d\+\>"
syntax match sayTitle "^\s*test\>.*$" contains=sayComment
syntax match sayComment "#.*$" contains=@Spell
syntax region sayString start=+"+ end=+"+ oneline

highlight default link sayStatement Statement
highlight default link sayPerson Identifier
highlight default link sayOperator Operator
highlight default link sayBoolean Boolean
highlight default link sayReserved Error
highlight default link sayNumber Number
highlight default link sayTitle Title
highlight default link sayComment Comment
highlight default link sayString String

let b:current_syntax = 'say'
