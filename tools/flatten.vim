vim9script

# Writes a flat syntax file, which vimsyn reads, from a syntax file that is installed for Vim:
#
#     vim -es -u NONE -S tools/flatten.vim c flat
#
# writes flat/syntax/c.vim. The words behind the script are:
#
#     SYNTAX   the name of a syntax, as behind ':set syntax=', or the path of a file (with a slash, or '.vim' at
#              its end). A name stands for all that Vim reads for it: syntax/NAME.vim and syntax/NAME/*.vim in
#              each folder of 'runtimepath'.
#     FOLDER   where the folder syntax/ with the flat files is made ('.' where it is left out).
#     TEXT     a text that the syntax file may look at, as many do to tell kinds of one language. Without it
#              the file sees an empty buffer.
#
# It needs Vim 9. Variables that a syntax file asks for are set before it: --cmd "let g:is_bash = 1". So is another 'runtimepath'.
# Flat files are read with FOLDER as their folder: vimsyn check --folder=flat flat/syntax/c.vim
#
# What it does. Vim itself runs the file: it decides conditions, runs loops and functions, expands ':execute' and
# user commands, and reads what ':runtime', ':source' and ':syn include' name. But in place of each file it gets a
# copy in which ':syntax' and ':highlight' are calls that carry the command out and note it as it is carried out.
# The noted commands, in their order, are the flat file:
#
#   - What ':syn include' reads is a flat file of its own, c-1-html.vim, so that its include number holds.
#   - A change of 'iskeyword' is 'syn iskeyword'.
#   - Spellings that Vim reads and vimsyn doesn't are put into the usual ones, which the parts in flatten/ say.
#   - Patterns that cost vimsyn much are put in words of the same meaning that cost less: counts within counts, looks behind.
#   - Names of colours are put as #rrggbb.
#   - ':syn sync' is left out, since painting starts from the first line.
#
# It prints what it left out, or put in other words that don't always mean the same, as 'file:line: cause: command',
# and so does the end of the flat file, in comments. A command that Vim itself refuses is among them, with Vim's
# message, and so are autocommands and other options than 'iskeyword', which no flat file can hold.
#
# The exit status is 0 where the flat file was written, and 1 where no file has the name, or the words are too few or
# too many. A syntax file is a script: run it only where you would open a text with it. A flat file is made of its
# commands, so its licence holds on.

set nocompatible encoding=utf-8 viminfo=

import './flatten/copies.vim'
import './flatten/cut.vim'
import './flatten/frame.vim'
import './flatten/cluster.vim'
import './flatten/command.vim'
import './flatten/item.vim'
import './flatten/scope.vim'

var what = ''                          # the syntax that was asked for,
var folder = ''                        # the folder of the flat files,
var name = ''                          # and the name of the flat file
var by_name = true                     # whether a name was asked for, and not a path
var room = ''                          # the folder of the copies
var includes = 0
var pending: list<any> = []            # a command that is being carried out
var last_file = -2                     # the file of the last one
var own_iskeyword = ''                 # what 'syn iskeyword' set
var keywords_written = '@,48-57,_,192-255'
g:flatten_next = ''

# === What the copies call ===

# Vim asks for each file that is to be sourced; it gets the copy.
func Source(path) abort
  let copy = s:BeginSource(fnamemodify(a:path, ':p'))
  set eventignore+=SourceCmd
  exe 'source' fnameescape(copy)
endfunc

def BeginSource(path: string): string
  const made = copies.CopyOf(path, room)
  LeaveIncludes()
  frame.NoteRead()
  return made
enddef

command! -nargs=* FlattenPut Put(<q-args>)

# The text that ':execute' has put together, behind its file and line.
def Put(text: string)
  final m = matchlist(text, '^\(\d\+\), \(\d\+\),\_s\(\_.*\)$')
  g:flatten_next = empty(m) ? '' : g:FlattenText(str2nr(m[1]), str2nr(m[2]), m[3])
enddef

def g:FlattenText(file: number, lnum: number, text: string): string
  return join(map(split(text, "\n", true), (_, line) => copies.Rewrite(line, file, lnum, false)), "\n")
enddef

def g:FlattenWords(...words: list<any>): string
  return join(mapnew(words, (_, word) => string(word)), ', ')
enddef

def g:FlattenNote(file: number, lnum: number, cause: string, text: string)
  frame.LeaveOut(file, lnum, cause, text)
enddef

# Carries a command out and notes it. An error goes on as it would without this call: as a message, or to a 'try' of
# the file, past the lines behind. So this function and the next have neither 'abort' nor a 'try'.
func g:FlattenCommand(file, lnum, text)
  call s:Begin(a:file, a:lnum, a:text)
  let v:errmsg = ''
  exe a:text
  call s:Carried(a:file, a:lnum, a:text)
endfunc

func g:FlattenInclude(file, lnum, text)
  call s:BeginInclude(a:file, a:lnum, a:text)
  let v:errmsg = ''
  exe a:text
  call s:EndInclude()
endfunc

# (Behind a command of the same file no include can have ended.)
def Begin(file: number, lnum: number, text: string)
  if file == last_file
    if pending != []
      LeavePending()
    endif
  else
    LeaveIncludes()
    last_file = file
  endif
  pending = stridx(text, 'list') > 0 && text =~# '^sy\a*\s\+list\>' ? [] : [file, lnum, text]
enddef

def Carried(file: number, lnum: number, text: string)
  pending = []
  if v:errmsg !=# ''
    frame.LeaveOut(file, lnum, v:errmsg, text)
    return
  endif
  final flat = command.Flat(text)
  if strpart(text, 0, 2) ==# 'sy'
    NoteOwnKeywords(text)
  endif
  NoteKeywords(file, lnum)
  for cause in flat.causes
    frame.LeaveOut(file, lnum, cause, text)
  endfor
  for line in flat.lines
    frame.Keep(file, lnum, line)
  endfor
enddef

def BeginInclude(file: number, lnum: number, text: string)
  LeaveIncludes()
  includes += 1
  const tail = fnamemodify(matchstr(text, '\S\+$'), ':t')
  frame.Open(name .. '-' .. includes .. '-' .. tail, [file, lnum, text], matchstr(text, '^\a\+\s\+include\s\+\zs@\S\+\ze\s'))
enddef

def EndInclude()
  cluster.WriteOut()
  final read = frame.Close()
  const [file, lnum, text] = read.asked
  if !read.read
    frame.LeaveOut(file, lnum, v:errmsg ==# '' ? 'no such file' : v:errmsg, text)
  elseif empty(read.entries)
    frame.LeaveOut(file, lnum, 'nothing was read there', text)
  else
    frame.Keep(file, lnum, 'syn include ' .. read.cluster .. (read.cluster ==# '' ? '' : ' ') .. 'syntax/' .. read.name)
    if read.cluster !=# ''
      cluster.Change(tolower(read.cluster[1 :]), 'add', keys(read.tops))
    endif
  endif
enddef

# A command that ended by an error which the file's own 'try' took is left out.
def LeavePending()
  if pending != []
    const [file, lnum, text] = pending
    pending = []
    frame.LeaveOut(file, lnum, 'refused by Vim', text)
  endif
enddef

# Includes that ended so are closed.
def LeaveIncludes()
  LeavePending()
  last_file = -2
  if len(frame.frames) > 1
    const open = count(expand('<stack>'), 'FlattenInclude[')
    while len(frame.frames) > open + 1
      EndInclude()
    endwhile
  endif
enddef

# What 'syn iskeyword' has set once a command is carried out, or nothing. ':syn sync clear' takes it away too.
def NoteOwnKeywords(text: string)
  if index(['iskeyword', 'clear', 'sync'], cut.Head(text)[0]) >= 0
    const told = matchstr(execute('syntax iskeyword'), 'syntax iskeyword \zs.*')
    own_iskeyword = told =~# '^not set' ? '' : told
  endif
enddef

# The keyword set as 'syn iskeyword', where it has changed. With 'lisp' a dash belongs to it.
def NoteKeywords(file: number, lnum: number)
  const given = (own_iskeyword ==# '' ? &l:iskeyword : own_iskeyword) .. (&l:lisp ? ',-' : '')
  if given !=# keywords_written
    keywords_written = given
    frame.Keep(file, lnum, 'syn iskeyword ' .. substitute(given, '[ "|]', (m) => string(char2nr(m[0])), 'g'))
  endif
enddef

# === The run ===

func Main() abort
  call s:Prepare()
  syntax on
  runtime colors/lists/default.vim
  call s:command.SetColours(exists('v:colornames') ? copy(v:colornames) : {})
  exe 'noautocmd' (argc() > 2 ? 'edit! ' .. fnameescape(argv(2)) : 'enew!')
  exe 'noautocmd setlocal filetype=' .. s:name 'syntax=' .. s:name
  call s:frame.Open(s:name .. '.vim', [], '')
  let &verbosefile = s:room .. '/messages'
  " (in place of Vim's own, which keeps Vim from asking for the files that it sources)
  autocmd! Syntax
  augroup flatten
    autocmd SourceCmd * nested call s:Source(expand('<amatch>'))
    autocmd Syntax * nested call s:SetSyntax(expand('<amatch>'))
  augroup END
  exe s:by_name ? s:AllFilesOf(s:name) : 'source ' .. fnameescape(fnamemodify(s:what, ':p'))
endfunc

def Prepare()
  what = argv(0)
  folder = argc() > 1 ? argv(1) : '.'
  by_name = what !~# '/\|\.vim$'
  name = by_name ? what : fnamemodify(what, ':t:r')
  room = tempname()
  mkdir(room, 'p')
  set noswapfile nofsync nomodeline background=light t_Co=256
enddef

# The command that reads all that Vim reads for a syntax.
def AllFilesOf(syntax: string): string
  return 'runtime! syntax/' .. syntax .. '.vim syntax/' .. syntax .. '/*.vim'
enddef

# What ':set syntax' and ':doautocmd Syntax' do.
func SetSyntax(names) abort
  call g:FlattenCommand(-1, 0, 'syn clear')
  unlet! b:current_syntax
  for name in split(a:names, '\.')
    exe s:AllFilesOf(name)
  endfor
endfunc

def Finish(): bool
  augroup flatten
    autocmd!
  augroup END
  set verbosefile=
  LeaveIncludes()
  NoteKeywords(-1, 0)
  cluster.WriteOut()
  for line in scope.Settle() + item.OwnLinks()
    frame.Keep(-1, 0, line)
  endfor
  final main = frame.Close()
  if main.read == 0
    Say([what .. ': no such syntax file'])
    return false
  endif
  NoteMessages()
  final list = frame.NoteLines(copies.files, name)
  mkdir(folder .. '/syntax', 'p')
  for flat in frame.done
    var lines = frame.FlatLines(flat, copies.files)
    if flat is main && list != []
      lines += ['', '" Left out, or put in other words:'] + mapnew(list, (_, line) => '" ' .. line)
    endif
    writefile(lines, folder .. '/syntax/' .. flat.name)
  endfor
  Say(list)
  return true
enddef

# Errors of other commands, from Vim's messages: what a file silences, and what is noted already, isn't told.
def NoteMessages()
  const messages = room .. '/messages'
  var [at, lnum, own, in_script] = [-1, 0, false, false]
  for line in filereadable(messages) ? readfile(messages) : []
    if line =~# '^Error detected while processing '
      at = copies.FileOfCopy(matchstr(line, '.*\<script \zs[^[]\{-}\ze\%(\[\d\+\]\|:$\)'))
      lnum = str2nr(matchstr(line, '.*\<script [^[]\{-}\[\zs\d\+'))
      own = line =~# '\<Flatten\%(Command\|Include\):$'
      in_script = line =~# 'script [^[]*:$'
    elseif line =~# '^line\s\+\d\+:$' && in_script
      lnum = str2nr(matchstr(line, '\d\+'))
    elseif line =~# '^E\d\+:' && at >= 0 && !own
      const text = get(readfile(copies.files[at], '', lnum), lnum - 1, '')
      if text !~# '\<sil\%[ent]!'
        frame.LeaveOut(at, lnum, line, trim(text))
      endif
    endif
  endfor
enddef

def Say(lines: list<string>)
  if lines != []
    silent! noautocmd only!
    noautocmd enew!
    setlocal modifiable
    setline(1, lines)
    :%print
  endif
enddef

# A syntax file that ends Vim, as a script may, leaves no flat file.
def Ended()
  Say([name .. ': this file ends Vim'])
  Leave(1)
enddef

def Leave(status: number)
  visual
  exe ':' .. status .. 'cquit'
enddef

if argc() < 1 || argc() > 3 || index(argv(), '') >= 0
  Say(['usage: vim -es -u NONE -S flatten.vim SYNTAX [FOLDER [TEXT]]'])
  Leave(1)
endif
augroup flatten_ended
  autocmd VimLeavePre * Ended()
augroup END
Main()
const ended = Finish() ? 0 : 1
autocmd! flatten_ended
Leave(ended)
