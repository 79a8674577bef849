" Vim syntax of the assembly text of tw. ./dev editor writes this file.
if exists("b:current_syntax")
  finish
endif
syntax case match
setlocal iskeyword=@,48-57,_
syntax keyword twInstruction ADD AND BYTE CAT COPY DIV DROPR DROPW DUPR DUPW END FIND GET INS INT JEQ JLT JMP JTLT LAST LEN LOOK MADD MGET MINS MUL MULDIV NEW OR PUT PUTV READI REM REPEAT RET RULE RULEV SHL SHOW SHR SIZE SLICE SPAN STORE SUB SUBAT TEXT TINS TLOOK TSUBAT UNTIL WADD WMUL XOR
syntax keyword twStatement const let names proc regs version
syntax keyword twWord any closed cont control int leaf map ref sum tcont text tmap val write
syntax match twValue /\<v\(1[0-5]\|[0-9]\)\>/
syntax match twRight /\<d\(1[0-5]\|[0-9]\)\>/
syntax match twNumber /\(^\|\s\)\@<=-\?\d\+\>/
syntax match twSkip /\(^\|\s\)\@<=+\d\+\>/
syntax match twLabel /^\s*\zs\a\w*:\ze\(\s\|;\|$\)/
syntax match twEscape /\\\(["\\n]\|x[0-7]\x\)/ contained
syntax region twText start=/"/ skip=/\\./ end=/"/ oneline contains=twEscape
syntax match twComment /;.*$/
highlight default link twInstruction Statement
highlight default link twStatement PreProc
highlight default link twWord Type
highlight default link twValue Identifier
highlight default link twRight Special
highlight default link twNumber Number
highlight default link twSkip Number
highlight default link twLabel Label
highlight default link twEscape SpecialChar
highlight default link twText String
highlight default link twComment Comment
let b:current_syntax = "tw"
