" Slate, a format of settings: sections, keys with values, strings of three kinds, lists, comments.
if exists("b:current_syntax")
  finish
endif
let s:cpo_save = &cpo
set cpo&vim

" A key may hold a dash, so a word may.
syn iskeyword @,48-57,_,-

" What a value may be. Each is contained: it stands behind an equals sign alone.
syn cluster slateValue contains=slateSwitch,slateNumber,slateTime,slateString,slateText,slateHere,slateList,slateName

syn case ignore
syn keyword slateSwitch on off yes no true false contained nextgroup=slateRest skipwhite
syn case match

" A section and the name in it: the second pattern begins a character later and ends one earlier.
syn match slateSection "^\[.\{-}\]" contains=slateSectionName
syn match slateSectionName "\[.*\]"ms=s+1,me=e-1 contained

" A key leads to its equals sign, and that to a value, also in the next line.
syn match slateKey "^\s*\zs\k\+\ze\s*=" nextgroup=slateEquals skipwhite
syn match slateEquals "=" contained nextgroup=@slateValue skipwhite skipnl

syn match slateNumber "[-+]\=\<\d\+\%(\.\d\+\)\=\%([kM]\=B\|m\=s\|%\)\=" contained contains=slateUnit nextgroup=slateRest skipwhite
syn match slateUnit "\%(\a\|%\)\+$\@!" contained
syn match slateUnit "\d\zs\%(\a\+\|%\)" contained
syn match slateTime "\<\d\{4}-\d\d-\d\d\>" contained nextgroup=slateRest skipwhite
syn match slateName "\<\a\k*\>" contained nextgroup=slateRest skipwhite

" What stands behind a value that ends in its line, and isn't a comment.
syn match slateRest "[^# \t,\]].*" contained

" Strings: within one line, over lines, and up to a word of one's own.
syn region slateString start=+"+ skip=+\\\\\|\\"+ end=+"+ oneline contained contains=slateEscape,slateVariable nextgroup=slateRest skipwhite
syn region slateText matchgroup=slateQuotes start=+"""+ end=+"""+ contained contains=slateEscape,slateVariable
syn region slateHere matchgroup=slateQuotes start="<<\z(\u\+\)$" end="^\z1$" contained contains=slateVariable
syn match slateEscape +\\["\\nt]+ contained
syn region slateVariable matchgroup=slateBrace start="\${" end="}" oneline contained

" Lists in lists; comments may stand in them.
syn region slateList matchgroup=slateBracket start="\[" end="\]" contained contains=@slateValue,slateComment

syn match slateComment "#.*" contains=slateTodo
syn keyword slateTodo TODO FIXME contained

syn sync fromstart

hi def link slateSection Statement
hi def link slateSectionName Function
hi def link slateKey Identifier
hi def link slateEquals Operator
hi def link slateSwitch Boolean
hi def link slateNumber Number
hi def link slateUnit Type
hi def link slateTime Constant
hi def link slateName Constant
hi def link slateRest Error
hi def link slateString String
hi def link slateText String
hi def link slateHere String
hi def link slateQuotes Delimiter
hi def link slateEscape SpecialChar
hi def link slateVariable PreProc
hi def link slateBrace Delimiter
hi def link slateBracket Delimiter
hi def link slateComment Comment
hi def link slateTodo Todo

let b:current_syntax = "slate"
let &cpo = s:cpo_save
unlet s:cpo_save
