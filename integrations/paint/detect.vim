" Asks Vim in which language texts are. Each line of the file $VIMSYN_ASKED is a letter and a name:
"
"     F   a file: by its name and its first lines
"     S   standard input, of which this file is a copy: by its first lines alone
"     L   a language that somebody named: a syntax of this name, or the type of files with this name or ending
"
" The file $VIMSYN_ANSWERS gets a line of JSON for each: the syntax, or '', the type of file that Vim found, and the
" variables that it set for the buffer, as 'is_bash'.

set nocompatible encoding=utf-8 nomodeline noswapfile
filetype on

" Detection looks at the first lines only, so no more of a text is read.
func s:Detect(name, text) abort
  noautocmd enew!
  call setline(1, a:text)
  if a:name ==# ''
    doautocmd <nomodeline> filetypedetect StdinReadPost
  else
    exe 'noautocmd file' fnameescape(a:name)
    exe 'doautocmd <nomodeline> filetypedetect BufRead' fnameescape(a:name)
  endif
  return [&filetype, filter(copy(b:), {key, value -> key !=# 'changedtick' && type(value) != v:t_func})]
endfunc

func s:HasSyntax(name) abort
  return a:name =~# '^[A-Za-z0-9_+-][A-Za-z0-9_.+-]*$' && globpath(&runtimepath, 'syntax/' . a:name . '.vim') !=# ''
endfunc

func s:Named(language) abort
  if s:HasSyntax(a:language)
    return [a:language, {}]
  endif
  let [type, variables] = s:Detect('/text.' . a:language, [''])
  return type ==# '' ? s:Detect('/' . a:language, ['']) : [type, variables]
endfunc

func s:Answer(kind, name) abort
  if a:kind ==# 'L'
    let [type, variables] = s:Named(a:name)
  else
    let [type, variables] = s:Detect(a:kind ==# 'F' ? a:name : '', readfile(a:name, '', 500))
  endif
  " (a type such as 'yaml.ansible' names several syntaxes: the first one is taken)
  let syntax = get(split(type, '\.'), 0, '')
  return json_encode([s:HasSyntax(syntax) ? syntax : '', type, variables])
endfunc

let s:answers = []
for s:line in readfile($VIMSYN_ASKED)
  try
    call add(s:answers, s:Answer(s:line[0], s:line[1:]))
  catch
    call add(s:answers, '["", "", {}]')
  endtry
endfor
call writefile(s:answers, $VIMSYN_ANSWERS)
qall!
