vim9script

# Patterns in the spelling that vimsyn reads.

import './cut.vim'

const odd = '%[\\CV#]\|%[<>]\=\%(\d\+[cv]\|\d\{10,}l\)\|[z_]\\\|@\d*[=!>\\]\|\\Z\|\[[=.]\|\[^.*\\n'
# (behind a line number at its start a pattern still begins for Vim, so a caret is a line start there)
const caret_behind_line = '^\%(\\[cCmM]\)*\%(\\%[<>]\=\d\+l\)\+\zs\^'

const letters = '\[:\%(upper\|lower\):\]'

var respelled: dict<list<string>> = {}    # of each pattern that was asked for its answer

# A pattern, and a cause where it doesn't mean all that it means for Vim, or is left out.
export def Respell(pattern: string): list<string>
  const unfolds = stridx(pattern, 'er:]') > 0 && pattern =~# letters && IgnoresCase(pattern)
  const key = (unfolds ? 'i' : '') .. '/' .. pattern
  if !has_key(respelled, key)
    respelled[key] = Respelled(pattern, unfolds)
  endif
  return respelled[key]
enddef

# Whether a pattern that is added now ignores case.
def IgnoresCase(pattern: string): bool
  return pattern =~# '\\c' || pattern !~# '\\C' && execute('syntax case') =~# 'ignore'
enddef

# Whether a pattern has none of the letters that may need another spelling.
def IsPlain(pattern: string): bool
  for letter in ['%', '@', '\Z', '[=', '[.', '\n', 'z\', '_\']
    if stridx(pattern, letter) >= 0
      return false
    endif
  endfor
  return true
enddef

# A text that is painted has no cursor and no visual area, so '\%#' and '\%V' never match.
def Respelled(given: string, unfolds: bool): list<string>
  const pattern = stridx(given, 'l^') < 0 ? given : substitute(given, caret_behind_line, '\\_^', '')
  if !unfolds && (IsPlain(pattern) || pattern !~# odd)
    return [pattern, '']
  endif
  var [made, cause, level, i, before] = ['', '', 2, 0, '']
  while i < len(pattern)
    var [item, kind] = Item(pattern, i, level)
    const given_item = item
    i += len(item)
    if kind ==# 'level'
      level = stridx('VMmv', item[1])
    elseif kind ==# '%'
      var why = ''
      [item, why] = Percent(item, level)
      cause = cause ==# '' || why =~# '^left out' ? why : cause
    elseif kind ==# 'z' || kind ==# '_'
      item = '\' .. kind .. item[-1]
    elseif kind ==# '@'
      item = Look(item)
    elseif kind ==# 'Z'
      [item, cause] = ['', 'composing characters count: \Z']
    elseif kind ==# '[' && item =~# '\[=.=\]\|\[\..\.\]'
      cause = 'left out: ' .. matchstr(item, '\[=.=\]\|\[\..\.\]')
    elseif kind ==# '[' && before !=# '\_'
      var why = ''
      [item, why] = Collection(item, unfolds, level)
      cause = cause ==# '' ? why : cause
    endif
    made ..= item
    before = given_item
  endwhile
  return [made, cause]
enddef

# A collection, and a cause.
def Collection(given: string, unfolds: bool, level: number): list<string>
  var [item, cause] = [given, '']
  if item =~# '\\n' && item =~# '^\\\=\[^'
    item = WithoutLineEnds(item)
    cause = item ==# given ? '' : 'a line end in a negated collection: ' .. given
  endif
  if unfolds && (item =~# '\[:upper:\]') != (item =~# '\[:lower:\]')
    item = OneCase(item, level)
    cause = 'letters of one case, where case is ignored: ' .. given
  endif
  return [item, cause]
enddef

# A collection in which '[:upper:]' or '[:lower:]' holds no letters of the other case, also where case is ignored.
def OneCase(item: string, level: number): string
  const class = matchstr(item, letters)
  const others = class ==# '[:upper:]' ? '\l' : '\u'
  final m = matchlist(item, '^\(\\\=\[\)\(\^\=\)\(.*\)\]$')
  const rest = substitute(substitute(m[3], letters, '', 'g'), '^^', '\\^', '')
  const rest_alone = rest ==# '' ? (m[2] ==# '' ? '' : '.') : m[1] .. m[2] .. rest .. ']'
  const with_class = m[1] .. m[2] .. class .. (m[2] ==# '' ? '' : rest) .. ']'
  const choices = m[2] ==# '' ? [Spelled(others .. '@!', level) .. with_class] + (rest ==# '' ? [] : [rest_alone])
    : [with_class, Spelled(others .. '@=', level) .. rest_alone]
  return Spelled('%(', level) .. join(choices, Spelled('|', level)) .. Spelled(')', level)
enddef

# A negated collection without '\n', which Vim doesn't take for a member there. Without members it is any character.
def WithoutLineEnds(item: string): string
  const members = substitute(matchstr(item, '^\\\=\[^\zs.*\ze\]$'), '\\\(.\)', (m) => m[1] ==# 'n' ? '' : m[0], 'g')
  const front = item[0] ==# '\' ? '\' : ''
  return members ==# '' ? front .. '.' : front .. '[^' .. members .. ']'
enddef

# The character at a place, with the backslash before it.
def Character(pattern: string, i: number): string
  const first = strpart(pattern, i, 1)
  const last = first ==# '\' ? strpart(pattern, i, 2) : first
  return last[-1] <# "\x7f" ? last : matchstr(pattern, '^\\\=.', i)
enddef

# The item of a pattern at place i, and what it is: only those that may need another spelling have a kind.
export def Item(pattern: string, i: number, level: number): list<string>
  const item = Character(pattern, i)
  const c = item[-1]
  if stridx('[%@zZ_vmMV', c) < 0
    return [item, '']
  endif
  const bare = item[0] !=# '\' || item ==# '\'
  if !bare && c =~# '[vmMV]'
    return [item, 'level']
  elseif c ==# '[' && bare == (level >= 2)
    const end = cut.CollectionEnd(pattern, i + len(item))
    return end < len(pattern) ? [strpart(pattern, i, end + 1 - i), '['] : [item, '']
  elseif !bare && c ==# 'Z'
    return [item, 'Z']
  elseif !bare && c =~# '[z_]' && strpart(pattern, i + 2, 1) ==# '\'
    return [strpart(pattern, i, 4), c]
  elseif c ==# '%' && bare == (level == 3)
    return [matchstr(pattern, '^\\\=%\\\=\%([<>]\=\%(\d\+[lcv]\|''.\)\|#=\d\|[^<>]\)', i), '%']
  elseif c ==# '@' && bare == (level == 3)
    return [matchstr(pattern, '^\\\=@\d*\\\=\%([=!>]\|<\\\=[=!]\)', i), '@']
  endif
  return [item, '']
enddef

# Looks: a limit counts behind alone, and no backslash stands in their middle.
def Look(given: string): string
  const item = given[0] .. substitute(given[1 :], '\\', '', 'g')
  return item =~# '<' ? item : substitute(item, '\d\+', '', '')
enddef

def Percent(given: string, level: number): list<string>
  const item = substitute(given, '^\(\\\=%\)\\', '\1', '')
  final m = matchlist(item, '^\\\=%\([<>]\=\)\(\d\+\)\([lcv]\)$')
  if !empty(m) && m[3] ==# 'l'
    return len(m[2]) > 9 ? ['', 'left out: ' .. item] : [item, '']
  elseif !empty(m)
    return Column(item, m[1], str2nr(m[2]), m[3] ==# 'v', level)
  elseif item =~# '%[#V]$'
    return [Spelled('%(a@!a)', level), '']
  elseif item =~# '%C$'
    return ['', 'composing characters count: \%C']
  elseif item =~# "%[<>]\\='"
    return ['', 'left out: ' .. item]
  endif
  return [item, '']
enddef

# A place by its column, as a look behind up to the line's start.
def Column(item: string, compared: string, number: number, on_screen: bool, level: number): list<string>
  const most = compared ==# '<' ? number - 2 : number - 1
  const before = '^' .. Cells(most, compared ==# '', on_screen)
  const made = Spelled('%(' .. before .. ')@<' .. (compared ==# '>' ? '!' : '='), level)
  return [made, 'each character counts as one column: ' .. item]
enddef

# Exactly or at most so many columns; a tab goes to the next eighth one.
def Cells(count: number, exact: bool, tabs: bool): string
  if !tabs
    return '.{' .. (exact ? '' : ',') .. count .. '}'
  endif
  const eight = '%([^\t]{8}|[^\t]{,7}\t)'
  const [eights, rest] = [count / 8, count % 8]
  const whole = eight .. '{' .. eights .. '}[^\t]{' .. (exact ? '' : ',') .. rest .. '}'
  return exact || eights == 0 ? whole : '%(' .. whole .. '|' .. eight .. '{,' .. (eights - 1) .. '}[^\t]{,7})'
enddef

# A pattern that is written as behind \v, at another level.
export def Spelled(pattern: string, level: number): string
  const least = {'^': 1, '$': 1, '.': 2, '[': 2, '*': 2}
  var [made, i] = ['', 0]
  while i < len(pattern)
    const c = strpart(pattern, i, 1)
    const before = i == 0 ? '' : strpart(pattern, i - 1, 1)
    if c ==# '\'
      made ..= strpart(pattern, i, 2)
      i += 1
    elseif c ==# '['
      const end = cut.CollectionEnd(pattern, i + 1)
      made ..= (level < 2 ? '\' : '') .. strpart(pattern, i, end + 1 - i)
      i = end
    elseif c =~# '[(|){=@%.*^]' && before !=# '@' && before !=# '<' && before !=# '%'
      made ..= (level < get(least, c, 3) ? '\' : '') .. c
    else
      made ..= c
    endif
    i += 1
  endwhile
  return made
enddef

# The pattern between delimiters: another one where the pattern now holds the first outside of collections.
export def Delimited(pattern: string, delimiter: string): string
  for other in [delimiter] + split('/+#!@;,~', '\zs')
    const text = other .. pattern .. other
    if cut.PatternEnd(text, 0) == len(text) - 1
      return text
    endif
  endfor
  return delimiter .. pattern .. delimiter
enddef
