" Quill, a mark-up language: chapters, lists, emphasis, links, and code of another language.
if exists("b:current_syntax")
  finish
endif

syn spell toplevel

" Pebble's items are those of an include: in this file 'TOP' doesn't mean them.
syn include @quillPebble syntax/pebble.vim
unlet b:current_syntax

" A chapter goes up to the next one. It shows nothing of its own but its mark, and may be folded.
syn region quillChapter matchgroup=quillMark start="^= " end="^\ze= " transparent fold
syn match quillTitle "\%(^= \)\@<=.*" contains=@quillInline
syn match quillHeading "^==\+\s.*" contains=@quillInline

syn cluster quillInline contains=quillBold,quillSlanted,quillCode,quillLink,quillEscape
syn region quillBold matchgroup=quillSign start="\w\@<!\*\S\@=" end="\S\@<=\*\w\@!" oneline contains=quillSlanted,quillEscape concealends
syn region quillSlanted matchgroup=quillSign start="\<_\S\@=" end="\S\@<=_\>" oneline contains=quillBold,quillEscape concealends
syn region quillCode matchgroup=quillSign start="`" end="`" oneline concealends
syn match quillEscape "\\[\\*_`\[]" conceal cchar=\

" A link's text leads to its address.
syn region quillLink matchgroup=quillSign start="\[" end="\]\ze(" oneline nextgroup=quillAddress contains=quillBold,quillSlanted
syn region quillAddress matchgroup=quillSign start="(" end=")" oneline contained conceal

" Items of lists, and numbers of those that are counted.
syn match quillBullet "^\s*\zs[-+]\ze\s"
syn match quillCount "^\s*\zs\d\+\.\ze\s"
syn match quillRule "^-\{4,}$"

" Blocks between fences. The last one that is defined is tried first, so one that names its language comes behind.
syn region quillBlock matchgroup=quillFence start="^\z(\~\{3,}\).*$" end="^\z1$"
syn region quillPebbleBlock matchgroup=quillFence start="^\z(\~\{3,}\)\s*pebble$" end="^\z1$" keepend contains=@quillPebble

" A quotation is the lines that begin with '>'.
syn region quillQuote start="^>" skip="\n>" end="$" contains=@quillInline,quillQuoteMark
syn match quillQuoteMark "^>\+" contained

syn match quillRemark "%%.*" contains=quillTodo
syn keyword quillTodo TODO FIXME contained

syn sync fromstart

hi def link quillMark Delimiter
hi def link quillTitle Title
hi def link quillHeading Title
hi Title guifg=#a020f0 gui=bold
hi quillBold gui=bold
hi quillSlanted gui=italic
hi quillLink gui=underline
hi def link quillCode Constant
hi def link quillBlock Constant
hi def link quillEscape SpecialChar
hi def link quillSign Delimiter
hi def link quillFence PreProc
hi def link quillAddress Underlined
hi def link quillBullet Statement
hi def link quillCount Number
hi def link quillRule PreProc
hi def link quillQuote Identifier
hi def link quillQuoteMark Special
hi def link quillRemark Comment
hi def link quillTodo Todo

let b:current_syntax = "quill"
