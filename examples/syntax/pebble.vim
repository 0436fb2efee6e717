" Pebble, a small programming language.
if exists("b:current_syntax")
  finish
endif

" 'function' may be cut down to 'fun'. Its name and the one behind 'type' are told apart from other words.
syn keyword pebbleDefine fun[ction] nextgroup=pebbleFunction skipwhite
syn keyword pebbleDefine type nextgroup=pebbleType skipwhite
syn keyword pebbleWord let var return use in
syn keyword pebbleCond if else match
syn keyword pebbleLoop while for break continue
syn keyword pebbleValue true false nothing
syn match pebbleFunction "\<\l\w*" contained
syn match pebbleType "\<\u\w*\>"
syn match pebbleCall "\<\l\w*\ze\s*("

syn match pebbleNumber "\<\d[0-9_]*\%(\.\d\+\%(e[-+]\=\d\+\)\=\)\=\>"
syn match pebbleNumber "\<0x\x\+\>"
syn match pebbleOperator "[-+*/%<>=!]=\=\|\.\.\|->\|&&\|||"

" A character; one that is too long or never ends is an error. The last match that is defined is tried first.
syn match pebbleBad "'[^' ]*'\="
syn match pebbleChar "'\%(\\.\|[^\\']\)'" contains=pebbleEscape
syn match pebbleEscape "\\\%([nt\\'\"{]\|u\x\{4}\)" contained

" A string holds expressions in braces, which hold strings again. Their brace ends no string, so they extend it.
syn region pebbleString start=+"+ skip=+\\.+ end=+"+ keepend contains=pebbleEscape,pebbleHole
syn region pebbleHole matchgroup=pebbleBrace start="{" end="}" contained extend contains=TOP,pebbleLost
" As many hashes as stand before the quote stand behind the one that ends a raw string.
syn region pebbleRaw start=+\<r\z(#*\)"+ end=+"\z1+

" Brackets lead to what may stand in them: all but a bracket that closes nothing, which is an error.
syn match pebbleLost "[)\]}]"
syn region pebbleParen transparent start="(" end=")" contains=TOP,pebbleLost
syn region pebbleBracket transparent start="\[" end="\]" contains=TOP,pebbleLost
syn region pebbleBlock transparent start="{" end="}" contains=TOP,pebbleLost fold

" An instruction for the compiler is a line, or more with a backslash at their ends. The end of the line is the end
" of what stands in it, except that a comment goes on.
syn region pebblePragma start="^\s*@" skip="\\$" end="$" keepend contains=pebbleComment,pebbleString,pebbleNumber
syn match pebbleLine "--.*$" contains=pebbleTodo,pebbleNote
syn region pebbleComment start="(\*" end="\*)" extend contains=pebbleComment,pebbleTodo,pebbleNote fold
syn keyword pebbleTodo TODO FIXME contained
" A note in any comment: 'containedin' says so from here.
syn match pebbleNote "\[[a-z ]\+\]"hs=s+1,he=e-1 contained containedin=pebbleLine,pebbleComment

syn sync fromstart

hi def link pebbleDefine Keyword
hi def link pebbleFunction Function
hi def link pebbleCall Identifier
hi def link pebbleType Type
hi def link pebbleWord Statement
hi def link pebbleCond Conditional
hi def link pebbleLoop Repeat
hi def link pebbleValue Boolean
hi def link pebbleNumber Number
hi def link pebbleOperator Operator
hi def link pebbleChar Character
hi def link pebbleEscape SpecialChar
hi def link pebbleString String
hi def link pebbleRaw String
hi def link pebbleBrace Delimiter
hi def link pebblePragma PreProc
hi def link pebbleLine Comment
hi def link pebbleComment Comment
hi def link pebbleTodo Todo
hi def link pebbleNote SpecialComment
hi def link pebbleBad Error
hi def link pebbleLost Error

let b:current_syntax = "pebble"
