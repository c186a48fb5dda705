" Vim syntax file: occam 2, in the profile of this compiler

if exists("b:current_syntax")
  finish
endif

" Names may hold dots, and capitals differ from small letters.
syntax case match
syntax iskeyword @,48-57,.

syntax keyword occamConstruct SEQ PAR ALT IF CASE WHILE PRI ELSE FOR
syntax keyword occamDeclaration PROC PROTOCOL VAL IS CHAN OF
syntax keyword occamType BOOL BYTE INT
syntax keyword occamProcess SKIP STOP
syntax keyword occamOperator AND OR NOT PLUS MINUS TIMES REM AFTER BITAND BITOR BITNOT MOSTPOS MOSTNEG SIZE
syntax keyword occamBoolean TRUE FALSE
" Reserved, and of no use in this profile.
syntax keyword occamReserved ANY AT FROM FUNCTION INT16 INT32 INT64 PLACE PLACED PORT PROCESSOR REAL32 REAL64 RESULT RETYPES ROUND TIMER TRUNC VALOF

syntax match occamSymbol ":=\|::\|<>\|<=\|>=\|<<\|>>\|><\|/\\\|\\/\|[?!&~=<>+*/\\-]"
syntax match occamNumber "\<\d\+\>\|#\x\+"
syntax match occamEscape contained "\*#\x\x\|\*[cnts'\"*]"
syntax match occamByte "'\(\*#\x\x\|\*.\|[^*']\)'" contains=occamEscape
syntax region occamString start=+"+ skip=+\*"\|\*\*+ end=+"+ oneline contains=occamEscape
syntax match occamComment "--.*$" contains=@Spell

highlight default link occamConstruct Statement
highlight default link occamDeclaration Structure
highlight default link occamType Type
highlight default link occamProcess Statement
highlight default link occamOperator Operator
highlight default link occamSymbol Operator
highlight default link occamBoolean Boolean
highlight default link occamReserved Error
highlight default link occamNumber Number
highlight default link occamEscape SpecialChar
highlight default link occamByte Character
highlight default link occamString String
highlight default link occamComment Comment

let b:current_syntax = "occam"
