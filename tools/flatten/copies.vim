vim9script

# Copies of script files, in which ':syntax' and ':highlight' are calls.

import './cut.vim'

export var files: list<string> = []    # the files that were read
var copy_of: dict<string> = {}         # of each file its copy
var plain_commands: dict<bool> = {}    # user commands that a bar ends

# The copy of a file, below a folder.
export def CopyOf(path: string, room: string): string
  if !has_key(copy_of, path)
    copy_of[path] = Copy(path, room)
  endif
  return copy_of[path]
enddef

# The number of the file that has a copy, or -1.
export def FileOfCopy(copy: string): number
  const at = index(values(copy_of), copy)
  return at < 0 ? -1 : index(files, keys(copy_of)[at])
enddef

def Copy(path: string, room: string): string
  const number = len(files)
  add(files, path)
  # (a function of an autoload file has to be in a file of its name)
  const below = matchstr(path, '.*/autoload/\zs.*')
  const copy = room .. '/' .. number .. '/' .. (below ==# '' ? fnamemodify(path, ':t') : below)
  mkdir(fnamemodify(copy, ':h'), 'p')
  # (a list whose type Vim wasn't told is looked through at each call that has it)
  final lines: list<string> = readfile(path)
  writefile(CopyLines(lines, number), copy)
  return copy
enddef

# The lines of a copy: each command stands in the line that it has in its file. The first one lets Vim ask again.
def CopyLines(lines: list<string>, file: number): list<string>
  const vim9 = match(lines, '^\s*vim9s\%[cript]\>') >= 0
  var made: list<string> = []
  var [begun, i, joined] = [false, 0, 0]
  while true
    const code = vim9 ? i : NextCode(lines, i)
    if code > i
      made += repeat([''], code - i)
      i = code
    endif
    if i >= len(lines)
      break
    endif
    joined = joined > i || joined < 0 ? joined : match(lines, goes_on, i + 1)
    const [text, next] = joined == i + 1 || vim9 ? Logical(lines, i, vim9) : [lines[i], i + 1]
    var line = Rewrite(text, file, i + 1, vim9)
    if !begun && line !~# '^\s*$' && line !~# '^\s*vim9s\%[cript]\>'
      begun = true
      line = 'set eventignore-=SourceCmd | ' .. line
    endif
    add(made, line)
    const kept = stridx(text, '<<') < 0 ? [] : HeredocLines(text, lines, next)
    if next + len(kept) > i + 1
      made += repeat([''], next - i - 1) + kept
    endif
    i = next + len(kept)
  endwhile
  return begun ? made : made + ['set eventignore-=SourceCmd']
enddef

# A line that goes on with the one before it, outside of Vim 9 script.
const goes_on = '^\s*\%(\\\|["#]\\ \)'

# The next line from line i on that is no comment and isn't empty; or the comment before it, if it goes on with that.
def NextCode(lines: list<string>, i: number): number
  const first = i < len(lines) ? strpart(trim(lines[i], " \t", 1), 0, 1) : ''
  if first !=# '' && first !=# '"'
    return i
  endif
  const next = match(lines, '^\s*[^" \t]', i)
  return next < 0 ? len(lines) : next > i && lines[next] =~# goes_on ? next - 1 : next
enddef

# The logical line that begins at line i, and the line behind it.
def Logical(lines: list<string>, i: number, vim9: bool): list<any>
  var [text, next] = [lines[i], i + 1]
  while next < len(lines)
    const line = lines[next]
    const c = trim(line, " \t", 1)[0]
    if c ==# '\'
      text ..= matchstr(line, '^\s*\\\zs.*')
    elseif vim9 && text =~# '^\s*exe' && line =~# '^\s*\%(\.\.\|->\|?\|:\|||\|&&\)'
      text ..= ' ' .. line
    elseif c !=# '"' && c !=# '#' || line !~# '^\s*["#]\\ '
      break
    endif
    next += 1
  endwhile
  return [text, next]
enddef

# The lines of the heredoc that a line begins, if it does.
def HeredocLines(text: string, lines: list<string>, from: number): list<string>
  var m = matchlist(text, '^\s*\%(let\|cons\%[t]\|var\|final\)\s.\{-}=<<\s*\(\%(trim\s\+\|eval\s\+\)*\)\(\S\+\)')
  if empty(m)
    m = matchlist(text, '^\s*\%(py\%[thon]3\=\|py3\|pyx\|perl\|ruby\|lua\|tcl\|mz\%[scheme]\)\s*<<\s*\(trim\s\+\)\=\(\S*\)')
  endif
  if empty(m)
    return []
  endif
  const mark = '^' .. (m[1] =~# 'trim' ? '\s*' : '') .. '\V' .. escape(m[2] ==# '' ? '.' : m[2], '\') .. '\m$'
  return lines[from : match(lines, mark, from)]
enddef

# === One line, rewritten ===

# Kinds of commands by their words: each spelling has the letters that may be left out in brackets.
var kinds: dict<string> = {}

def AddKind(kind: string, spellings: string)
  for spelling in split(spellings)
    const front = matchstr(spelling, '^\w\+')
    const back = matchstr(spelling, '\[\zs\w\+')
    for count in range(len(back) + 1)
      kinds[front .. strpart(back, 0, count)] = kind
    endfor
  endfor
enddef

AddKind('modifier', 'sil[ent] uns[ilent] noa[utocmd] keepj[umps] keepa[lt] keepp[atterns] keepm[arks] lockm[arks]'
  .. ' sandb[ox] leg[acy] vim9[cmd] verb[ose]')
AddKind('syntax', 'sy[ntax]')
AddKind('highlight', 'hi[ghlight]')
AddKind('execute', 'exe[cute]')
AddKind('definition', 'com[mand]')
AddKind('autocommand', 'au[tocmd]')
AddKind('option', 'se[t] setl[ocal] setg[lobal]')
AddKind('bars', 'fu[nction] def norm[al] g[lobal] v[global] argdo bufdo windo tabdo r[ead] w[rite] py[thon] py3 pyx'
  .. ' pe[rl] lua rub[y] tcl mz[scheme] ter[minal]')
AddKind('expressions', 'if elsei[f] wh[ile] for let cons[t] unl[et] cal[l] retu[rn] ec[ho] echom[sg] echoe[rr] echon'
  .. ' ev[al] th[row] var final lockv[ar] unlo[ckvar]')

# The line, in which each command whose words must be known is a call.
export def Rewrite(line: string, file: number, lnum: number, vim9: bool): string
  const at = file .. ', ' .. lnum
  var [made, rest] = ['', stridx(line, '<s') < 0 ? line : WithoutScriptName(line, file)]
  while true
    const lead = get(kinds, strpart(rest, 0, stridx(rest, ' ')), 'modifier') ==# 'modifier' ? Lead(rest) : ''
    rest = strpart(rest, len(lead))
    if rest ==# '' || rest[0] ==# (vim9 ? '#' : '"')
      return made .. lead
    endif
    if rest[0] !=# '|'
      const [command, behind] = RewriteCommand(lead, rest, at, vim9)
      made ..= command
      rest = behind
    endif
    if rest[0] !=# '|'
      return made
    endif
    made ..= ' | '
    rest = strpart(rest, 1)
  endwhile
  return made
enddef

# Blanks, colons and modifiers in front of a command.
def Lead(text: string): string
  var i = cut.BlankEnd(text, 0)
  i = strpart(text, i, 1) ==# ':' ? matchend(text, '^[ \t:]*') : i
  while get(kinds, WordAt(text, i), '') ==# 'modifier'
    i = matchend(text, '^\a\w*!\=[ \t:]*', i)
  endwhile
  return strpart(text, 0, i)
enddef

# The word at a place, as of a command.
def WordAt(text: string, i: number): string
  const word = strpart(text, i, stridx(text, ' ', i) - i)
  return has_key(kinds, word) ? word : matchstr(text, '^\a\w*', i)
enddef

# One command at the front of a text: what stands for it, and the rest from its bar on.
def RewriteCommand(lead: string, text: string, at: string, vim9: bool): list<string>
  const word = WordAt(text, 0)
  const kind = get(kinds, word, '')
  if kind ==# 'definition'
    return [lead .. Definition(text, at), '']
  elseif kind ==# 'autocommand'
    return [Noted(lead, text, at, 'autocommand'), '']
  elseif kind ==# 'bars'
    return [lead .. text, '']
  endif
  const end = CommandEnd(kind, word, text, vim9)
  const command = strpart(text, 0, end)
  const made = kind ==# 'syntax' || kind ==# 'highlight' ? lead .. Call(IsInclude(command) ? 'FlattenInclude' : 'FlattenCommand', at, command)
    : kind ==# 'execute' ? lead .. Put(strpart(command, len(word)), lead, at)
    : kind ==# 'option' && !IsKeywordOption(command) ? Noted(lead, command, at, 'option') : lead .. command
  return [made, strpart(text, end, 1) ==# '|' ? strpart(text, end) : '']
enddef

def IsInclude(command: string): bool
  return stridx(command, 'include') > 0 && command =~# '^sy\a*\s\+include\>'
enddef

def CommandEnd(kind: string, word: string, text: string, vim9: bool): number
  if kind ==# 'syntax'
    return cut.SyntaxEnd(text, vim9)
  elseif word >=# 'A' && word <# '[' && strpart(text, len(word), 1) !~# '[(:.\[]'
    return has_key(plain_commands, word) ? cut.BarEnd(text, vim9) : len(text)
  elseif kind ==# 'execute'
    return cut.ExpressionEnd(text, len(word), true, vim9)
  elseif kind ==# 'expressions' || kind ==# '' && vim9 && text =~# '^[A-Za-z_][A-Za-z0-9_:.#]*\%(\s*=\|[(\[]\)'
    return cut.ExpressionEnd(text, len(word), word =~# '^ec', vim9)
  endif
  return cut.BarEnd(text, vim9)
enddef

def Put(values: string, lead: string, at: string): string
  return "exe 'FlattenPut " .. at .. ",' " .. values .. ' | ' .. lead .. 'exe g:flatten_next'
enddef

# Options that make a flat file another one, or are of the script that sets them.
def IsKeywordOption(command: string): bool
  return command =~# '^\a\+\s\+\%(cpo\|cpoptions\|isk\|iskeyword\|syn\|syntax\|lisp\)\>\S*\s*$'
enddef

def Quoted(text: string): string
  return "'" .. (stridx(text, "'") < 0 ? text : substitute(text, "'", "''", 'g')) .. "'"
enddef

def Call(name: string, at: string, text: string): string
  return 'call g:' .. name .. '(' .. at .. ', ' .. Quoted(cut.Trimmed(text)) .. ')'
enddef

def Noted(lead: string, text: string, at: string, cause: string): string
  return Call('FlattenNote', at .. ", '" .. cause .. "'", text) .. ' | ' .. lead .. text
enddef

# A user command: its replacement is put together as a text where it is used, and rewritten there.
def Definition(text: string, at: string): string
  final m = matchlist(text, '^\(\a\+!\=\s\+\%(-\S\+\s\+\)*\)\(\u\w*\)\(\s\+\)\(.*\)$')
  if empty(m)
    return text
  endif
  if m[1] =~# '-bar\>'
    plain_commands[m[2]] = true
  endif
  var with = Quoted(m[4])
  with = substitute(with, '<q-args>', "' . string(<q-args>) . '", 'g')
  with = substitute(with, '<args>', "' . <q-args> . '", 'g')
  with = substitute(with, '<f-args>', "' . g:FlattenWords(<f-args>) . '", 'g')
  return m[1] .. m[2] .. m[3] .. 'exe g:FlattenText(' .. at .. ', ' .. with .. ')'
enddef

# For <sfile> Vim would put the name of the copy: the file's own name stands in its place.
def WithoutScriptName(line: string, file: number): string
  const path = files[file]
  const mods = '\(\%(:[phtre~.]\)*\)'
  const made = substitute(line, 'expand(\s*\([''"]\)<\%(sfile\|script\)>' .. mods .. '\1[^)]*)',
    (m) => 'fnamemodify(' .. Quoted(path) .. ', ' .. Quoted(m[2]) .. ')', 'g')
  return substitute(made, '<\%(sfile\|script\)>' .. mods, (m) => fnameescape(fnamemodify(path, m[1])), 'g')
enddef
