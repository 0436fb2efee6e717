vim9script

# Where the commands of a syntax file end, and the pieces of a syntax command. Places are bytes, from 0.

# === Where commands end ===

# The bar or comment that ends a command without patterns and expressions, or the text's end.
export def BarEnd(text: string, vim9: bool): number
  if stridx(text, '|') < 0 && stridx(text, vim9 ? '#' : '"') < 0
    return len(text)
  endif
  const stop = vim9 ? '[|#\\\x16]' : '[|"\\\x16]'
  var i = match(text, stop)
  while i >= 0
    const c = strpart(text, i, 1)
    if c ==# '\' || c ==# "\<C-V>"
      i += 1
    elseif c !=# '#' || strpart(text, i - 1, 1) =~# '\s'
      return i
    endif
    i = match(text, stop, i + 1)
  endwhile
  return len(text)
enddef

# The same behind expressions. Where several may stand side by side, a quote behind one begins the next.
export def ExpressionEnd(text: string, from: number, many: bool, vim9: bool): number
  var [i, value_end] = [match(text, '["''|@#]', from), -1]
  while i >= 0
    const c = strpart(text, i, 1)
    const after = strpart(text, i + 1, 1)
    if c ==# '"'
      const end = matchend(text, '^"\%([^"\\]\|\\.\)*"', i)
      if end < 0 || !many && !vim9 && IsValue(text, i, value_end)
        return i
      endif
      [i, value_end] = [end, end]
    elseif c ==# "'"
      i = matchend(text, '^''\%([^'']\|''''\)*''', i)
      value_end = i
    elseif c ==# '@'
      [i, value_end] = [i + 2, i + 2]
    elseif c ==# '|' && after !=# '|' || c ==# '#' && vim9 && strpart(text, i - 1, 1) =~# '\s' && after !=# '{'
      return i
    else
      i += c ==# '|' ? 2 : 1
    endif
    i = i < 0 ? i : match(text, '["''|@#]', i)
  endwhile
  return len(text)
enddef

# Whether a value ends before place i, past blanks; of a text or a register it is known where one ended.
def IsValue(text: string, i: number, value_end: number): bool
  var end = i
  while end > 0 && (strpart(text, end - 1, 1) ==# ' ' || strpart(text, end - 1, 1) ==# "\t")
    end -= 1
  endwhile
  return (end == value_end || strpart(text, end - 1, 1) =~# '[[:alnum:]_)\]}]')
    && strpart(text, end - 8, 8) !~# '\<\%(in\|is\|isnot\|return\|throw\)[?#]\=$'
enddef

# === Blanks and words ===

# The place behind the blanks at a place.
export def BlankEnd(text: string, begin: number): number
  return len(text) - len(trim(strpart(text, begin), " \t", 1))
enddef

const blanks = [' ', "\t"]
const blanks_and_bar = [' ', "\t", '|']
const behind_option = [' ', "\t", '=', '|']

# The place of the first of some characters, from a place up to another one.
def FirstOf(text: string, characters: list<string>, from: number, to: number): number
  var first = to
  for c in characters
    const at = stridx(text, c, from)
    if at >= 0 && at < first
      first = at
    endif
  endfor
  return first
enddef

var heads: dict<list<any>> = {}    # of each text that was asked for its head, the answer

# The subcommand of a syntax command, its first argument, and the place behind the blanks that follow this.
export def Head(text: string): list<any>
  if !has_key(heads, text)
    heads[text] = HeadOf(text)
  endif
  return heads[text]
enddef

def HeadOf(text: string): list<any>
  const sub = BlankEnd(text, FirstOf(text, blanks, 0, len(text)))
  const sub_end = FirstOf(text, blanks_and_bar, sub, len(text))
  const group = BlankEnd(text, sub_end)
  const group_end = FirstOf(text, blanks_and_bar, group, len(text))
  return [strpart(text, sub, sub_end - sub), strpart(text, group, group_end - group), BlankEnd(text, group_end)]
enddef

# === The pieces of a syntax command ===

# A command is cut into pieces, of which each is a dictionary: its kind ('head' for command and group, 'pattern',
# 'offsets', 'key' for what stands before a pattern, 'list', 'word' for any other), and its places from and to.
# The last one is empty and stands where the command ends.

def Piece(kind: string, from: number, to: number): dict<any>
  return {kind: kind, from: from, to: to}
enddef

def Set(words: string): dict<bool>
  var made = {}
  for word in split(words)
    made[word] = true
  endfor
  return made
enddef

const flags = Set('contained oneline keepend extend excludenl transparent skipwhite skipnl skipempty display fold'
  .. ' conceal concealends grouphere groupthere')

# What stands before '=' in an item, and the kind of piece that it begins.
const keys = {contains: 'list', containedin: 'list', nextgroup: 'list', cchar: 'word', matchgroup: 'word',
  start: 'key', skip: 'key', end: 'key'}

# Whether a word is an option that stands alone.
export def IsFlag(word: string): bool
  return has_key(flags, tolower(word))
enddef

var known: dict<list<dict<any>>> = {}    # the pieces of commands that were cut in their line

# The place where a syntax command ends. Its pieces are kept for when it is carried out.
export def SyntaxEnd(text: string, vim9: bool): number
  if stridx(text, '|') < 0 && stridx(text, '"') < 0 && stridx(text, '#') < 0
    return len(text)
  endif
  var pieces = Pieces(text, vim9)
  const end = pieces[-1].to
  const command = Trimmed(strpart(text, 0, end))
  pieces[-1] = Piece('end', len(command), len(command))
  known[command] = pieces
  return end
enddef

# A text without the blanks at its end, but for one behind a backslash.
export def Trimmed(text: string): string
  const made = trim(text, " \t", 2)
  const escapes = len(made) < len(text) && strpart(made, len(made) - 1) ==# '\'
  return escapes ? strpart(text, 0, len(made) + 1) : made
enddef

# The pieces of a command that ends where its text does.
export def KnownPieces(text: string): list<dict<any>>
  return has_key(known, text) ? remove(known, text) : Pieces(text, false)
enddef

export def Pieces(text: string, vim9: bool): list<dict<any>>
  const [sub, _, group_end] = Head(text)
  if sub ==# 'match' || sub ==# 'region'
    return ItemPieces(text, group_end, sub, vim9)
  endif
  const begin = matchend(text, '^\a\+\s*\a*\s*')
  if sub ==# 'sync'
    const item = matchstr(text, '^\%(match\|region\)\>', begin)
    if item !=# ''
      return ItemPieces(text, matchend(text, '\a\+\s*[^ \t|]*\s*', begin), item, vim9)
    endif
  endif
  return WordPieces(text, begin, sub, vim9)
enddef

def WordPieces(text: string, from: number, sub: string, vim9: bool): list<dict<any>>
  const keyword = sub ==# 'keyword'
  var i = keyword ? matchend(text, '[^ \t|]*\s*', from) : from
  var pieces = [Piece('head', 0, i)]
  while !EndsHere(text, i, vim9)
    const list = keyword ? matchend(text, '\c^\%(contains\|containedin\|nextgroup\)\s*=\s*', i) : -1
    const end = list >= 0 ? ListEnd(text, list) : WordEnd(text, i, !keyword)
    add(pieces, Piece(list >= 0 ? 'list' : 'word', i, end))
    i = matchend(text, '\s*', end)
    if sub ==# 'sync' && strpart(text, pieces[-1].from) =~? '^linecont\s' && i < len(text)
      AddPattern(pieces, text, i)
      i = matchend(text, '\s*', pieces[-1].to)
    endif
  endwhile
  return add(pieces, Piece('end', i, i))
enddef

def EndsHere(text: string, i: number, vim9: bool): bool
  const c = strpart(text, i, 1)
  return c ==# '' || c ==# '|' || c ==# "\n" || c ==# (vim9 ? '#' : '"')
enddef

def WordEnd(text: string, i: number, bar_ends: bool): number
  return FirstOf(text, bar_ends ? blanks_and_bar : blanks, i, len(text))
enddef

export def ListEnd(text: string, i: number): number
  const end = FirstOf(text, blanks, i, len(text))
  const bar = stridx(text, '|', i)
  if (bar < 0 || bar > end) && strpart(text, end - 1, 1) !=# ',' && strpart(text, BlankEnd(text, end), 1) !=# ','
    return end
  endif
  return matchend(text, '^\%([^ \t|,][^ \t,]*\)\=\%(\s*,\s*[^ \t|,][^ \t,]*\|,\)*', i)
enddef

# A match or region, from its first option on. What is no option of a match is its pattern.
def ItemPieces(text: string, from: number, sub: string, vim9: bool): list<dict<any>>
  var i = from
  var pieces = [Piece('head', 0, i)]
  var has_pattern = sub ==# 'region'
  while has_pattern ? !EndsHere(text, i, vim9) : i < len(text) && strpart(text, i, 1) !=# '|'
    if !AddOption(pieces, text, i, sub, has_pattern)
      AddPattern(pieces, text, i)
      has_pattern = true
    endif
    i = BlankEnd(text, pieces[-1].to)
  endwhile
  return add(pieces, Piece('end', i, i))
enddef

# Adds the option that stands at i, if one does.
def AddOption(pieces: list<dict<any>>, text: string, i: number, sub: string, has_pattern: bool): bool
  const end = FirstOf(text, behind_option, i, len(text))
  const word = tolower(strpart(text, i, end - i))
  if has_key(flags, word) && strpart(text, end, 1) !=# '='
    add(pieces, Piece('word', i, end))
    return true
  endif
  const equals = strpart(text, end, 1) ==# '=' ? end : BlankEnd(text, end)
  const kind = strpart(text, equals, 1) ==# '=' ? get(keys, word, '') : ''
  const value = kind ==# '' ? i : BlankEnd(text, equals + 1)
  if kind ==# 'key' && sub ==# 'region'
    add(pieces, Piece('key', i, value))
    AddPattern(pieces, text, value)
  elseif kind ==# 'list'
    add(pieces, Piece('list', i, ListEnd(text, value)))
  elseif kind !=# '' || has_pattern
    add(pieces, Piece('word', i, WordEnd(text, value, word !=# 'cchar')))
  elseif pieces[-1].kind ==# 'word' && strpart(text, pieces[-1].from) =~? '^group\%(here\|there\)'
    add(pieces, Piece('list', i, WordEnd(text, i, true)))
  else
    return false
  endif
  return true
enddef

# Adds the pattern whose delimiter stands at i, and its offsets. One that nothing closes is a word.
def AddPattern(pieces: list<dict<any>>, text: string, i: number)
  const close = PatternEnd(text, i)
  if close >= len(text)
    add(pieces, Piece('word', i, len(text)))
    return
  endif
  add(pieces, Piece('pattern', i, close + 1))
  const behind = strpart(text, close + 1, 1)
  if behind !=# ' ' && behind !=# "\t" && !EndsHere(text, close + 1, false)
    add(pieces, Piece('offsets', close + 1, WordEnd(text, close + 1, true)))
  endif
enddef

# The place of the delimiter that closes the pattern which opens at a place, as Vim finds it.
export def PatternEnd(text: string, opening: number): number
  const delimiter = strpart(text, opening, 1)
  var [i, level, backslash] = [opening + 1, 2, opening]
  var [close, bracket] = [NextOf(text, delimiter, i), NextOf(text, '[', i)]
  if close < bracket && strpart(text, close - 1, 1) !=# '\'
    return close
  endif
  while true
    close = close < i ? NextOf(text, delimiter, i) : close
    backslash = backslash < i ? NextOf(text, '\', i) : backslash
    bracket = bracket < i ? NextOf(text, '[', i) : bracket
    if close <= backslash && close <= bracket
      return close
    endif
    const after = backslash < bracket ? strpart(text, backslash + 1, 1) : ''
    i = backslash < bracket ? backslash : bracket
    if after ==# '' && level >= 2 || after ==# '[' && level < 2
      i = CollectionEnd(text, i + len(after) + 1)
    elseif after !=# ''
      i += 1
      level = after ==# 'v' ? 3 : after ==# 'V' ? 0 : level
    endif
    i += 1
  endwhile
  return len(text)
enddef

# The place of a character from a place on, or the text's end.
def NextOf(text: string, c: string, from: number): number
  const at = stridx(text, c, from)
  return at < 0 ? len(text) : at
enddef

# The place of the bracket that closes the collection whose members begin at i, or the text's end.
export def CollectionEnd(text: string, begin: number): number
  var i = begin
  if strpart(text, i, 1) ==# '^'
    i += 1
  endif
  const first = strpart(text, i, 1)
  if first ==# ']' || first ==# '-'
    i += 1
  endif
  i = match(text, '[]\\[-]', i)
  while i >= 0 && strpart(text, i, 1) !=# ']'
    i = match(text, '[]\\[-]', BehindMember(text, i))
  endwhile
  return i < 0 ? len(text) : i
enddef

# The place behind what a bracket, a dash or a backslash begins in a collection.
def BehindMember(text: string, i: number): number
  const c = strpart(text, i, 1)
  const after = strpart(text, i + 1, 1)
  if c ==# '['
    const class = matchend(text, '^\%(\[:\a\+:\]\|\[=.=\]\|\[\..\.\]\)', i)
    return class >= 0 ? class : i + 1
  elseif c ==# '-'
    return after ==# ']' || after ==# '' ? i + 1 : i + 2
  endif
  return after =~# '^[]^\-nrtebdoxuU\\]' ? i + 2 : i + 1
enddef
