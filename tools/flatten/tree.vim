vim9script

# Patterns as trees.
#
# A node is a dictionary with its kind and its places 'from' and 'to' in the pattern:
#
#   choice    branches with '\|' between them, in 'parts'; 'flags' is the place behind what takes no room at its front
#   both      concats with '\&' between them, in 'parts'
#   row       pieces one after the other, in 'parts'
#   group     '(..)' and its kin, whose choice is 'inside'; 'counted' where it has a number
#   list      '\%[..]', whose row is 'inside'
#   any other an atom: 'take' takes a character, 'line' may take a line end too, 'end' only that, 'zs', 'ze', 'back' for
#             a reference, 'char' for a character by itself, 'start', 'stop', 'word', 'wordend' for '^', '$', '\<', '\>',
#             'place' for other places
#
# Groups, lists and atoms end at 'atom_to' and have a 'multi' behind it, the text of their count without backslashes, '' for
# none, or a look: '@=', '@5<!' .., which begins at 'multi_from'; and the 'level' of magic at which they are spelled.

import './cut.vim'

var [text, at, level] = ['', 0, 2]    # the pattern that is read, how far, and the level of magic there
var ahead = ''                        # what stands behind the piece that was read last, as of Peek
var [counts, nested] = [0, false]     # the counts without a limit so far, and whether one stands in a part with another
var read: dict<list<any>> = {}        # of each pattern that was read, its tree, 'level' and 'nested'

# The tree of a pattern that Vim takes.
export def TreeOf(pattern: string): dict<any>
  const key = '/' .. pattern
  if has_key(read, key)
    level = read[key][1]
    nested = read[key][2]
    return read[key][0]
  endif
  [text, at, level] = [pattern, 0, 2]
  [counts, nested] = [0, false]
  final made = Choice()
  read[key] = [made, level, nested]
  return made
enddef

# Whether a count without a limit stands within another one in the pattern that was read last.
export def HasNested(): bool
  return nested
enddef

export def IsUnbounded(multi: string): bool
  return multi !=# '' && multi =~# '^[*+]\|^{-\=\d*,}\|^{-\=}'
enddef

# The level of magic at the end of the pattern that was read last.
export def LastLevel(): number
  return level
enddef

def Node(kind: string, from: number): dict<any>
  return {kind: kind, from: from, to: at, multi: '', level: level}
enddef

# The characters that may be more than themselves.
const special = '\^$.*[~()|&+=?{@%<>'

# What stands at the place, without its backslash: '' at the end, and a blank for a character that means itself.
def Peek(): string
  const c = strpart(text, at, 1)
  if stridx(special, c) < 0
    return ' '
  elseif c ==# '\' && at + 1 < len(text)
    const next = strpart(text, at + 1, 1)
    return stridx('^$', next) >= 0 && level >= 1 || stridx('.*[~', next) >= 0 && level >= 2
      || stridx('()|&+=?{@%<>', next) >= 0 && level == 3 ? ' ' : next
  elseif stridx('^$', c) >= 0 && level >= 1 || stridx('.*[~', c) >= 0 && level >= 2
      || stridx('()|&+=?{@%<>', c) >= 0 && level == 3
    return c
  endif
  return c ==# '' ? '' : ' '
enddef

# The length of the token at the place, as of its first character.
def Length(): number
  const escaped = strpart(text, at, 1) ==# '\' && at + 1 < len(text) ? 1 : 0
  const c = strpart(text, at + escaped, 1)
  return escaped + len(c <# "\x7f" ? c : matchstr(text, '.', at + escaped))
enddef

def Take(kind: string, length: number): dict<any>
  const from = at
  at += length
  return Node(kind, from)
enddef

# Goes past levels and the case, which take no room, and answers what stands behind them.
def SkipFlags(): string
  var c = Peek()
  while c !=# '' && stridx('cCvmMVZ', c) >= 0
    level = stridx('VMmv', c) >= 0 ? stridx('VMmv', c) : level
    at += 2
    c = Peek()
  endwhile
  return c
enddef

# (Parts are lists whose type is told: else Vim looks through all below a node at each call that has it.)
def Choice(): dict<any>
  var node = Node('choice', at)
  var parts: list<dict<any>> = [Both()]
  while Peek() ==# '|'
    at += Length()
    add(parts, Both())
  endwhile
  return extend(node, {parts: parts, to: at})
enddef

def Both(): dict<any>
  var node = Node('both', at)
  SkipFlags()
  node.flags = at
  var parts: list<dict<any>> = [Row()]
  while Peek() ==# '&'
    at += Length()
    add(parts, Row())
  endwhile
  return extend(node, {parts: parts, to: at})
enddef

def Row(): dict<any>
  var node = Node('row', at)
  var parts: list<dict<any>> = []
  var c = Peek()
  while c !=# '' && stridx('|&)', c) < 0
    add(parts, Piece(parts == [], c))
    c = ahead
  endwhile
  return extend(node, {parts: parts, to: at})
enddef

# (The character is what stands at the place, as of Peek.)
def Piece(first: bool, front: string): dict<any>
  const counts_before = counts
  var node = Atom(first, front)
  node.atom_to = at
  const c = SkipFlags()
  node.multi_from = at
  node.multi = c ==# ' ' || c ==# '' || node.kind ==# 'start' && c ==# '*' ? '' : Multi(c)
  node.to = at
  if IsUnbounded(node.multi)
    nested = nested || counts > counts_before
    counts += 1
  endif
  ahead = node.multi ==# '' ? c : SkipFlags()
  return node
enddef

# The count that begins with such a character, or nothing.
def Multi(c: string): string
  const from = at
  if stridx('*+=?', c) >= 0
    at += Length()
  elseif c ==# '{'
    at = matchend(text, '}', at)
  elseif c ==# '@'
    at = matchend(text, '^\\\=@\d*\%([=!>]\|<[=!]\)', at)
  else
    return ''
  endif
  return substitute(strpart(text, from, at - from), '\\', '', 'g')
enddef

const classes = 'iIkKfFpPsSdDxXoOwWhHaAlLuU'

def Atom(first: bool, c: string): dict<any>
  if c ==# ' '
    return Take('char', Length())
  elseif c ==# '('
    return Group(Length(), true)
  elseif c ==# '%'
    return Percent()
  elseif c ==# 'z'
    return External()
  elseif c ==# '['
    return Collection('take')
  elseif c ==# '_'
    return Underscored()
  elseif c ==# 'n'
    return Take('end', 2)
  elseif c ==# '^'
    return Take(first ? 'start' : 'char', Length())
  elseif c ==# '$'
    var node = Take('stop', Length())
    return IsStop() ? node : Node('char', node.from)
  elseif c ==# '<' || c ==# '>'
    return Take(c ==# '<' ? 'word' : 'wordend', Length())
  elseif c ==# '.' || stridx(classes, c) >= 0 && strpart(text, at, 1) ==# '\'
    return Take('take', Length())
  elseif c =~# '^[1-9]$' && strpart(text, at, 1) ==# '\'
    return Take('back', 2)
  endif
  return Take('char', Length())
enddef

# Whether a dollar before the place is the stop of a line.
def IsStop(): bool
  final kept = [at, level]
  const c = SkipFlags()
  const escaped = strpart(text, at, 1) ==# '\\'
  [at, level] = kept
  return level == 3 || c ==# '' || c ==# '|' || c ==# '&' || c ==# ')' || c ==# 'n' && escaped
enddef

def Group(length: number, counted: bool): dict<any>
  const from = at
  at += length
  var inside = Choice()
  at += Length()
  return extend(Node('group', from), {inside: inside, counted: counted})
enddef

def Percent(): dict<any>
  const from = at
  at += Length()
  const c = strpart(text, at, 1)
  if c ==# '('
    at = from
    return Group(Length() + 1, false)
  elseif c ==# '['
    return OptionalList(from)
  elseif c =~# '[doxuU]'
    at = matchend(text, '^\%(d\d\+\|o[0-7]\{1,4}\|x\x\{1,2}\|u\x\{1,4}\|U\x\{1,8}\)', at)
    return Node('char', from)
  endif
  at = matchend(text, '^\%([<>]\=\d\+[lcv]\|#=\d\|.\)', at)
  return Node(c ==# '$' ? 'stop' : c ==# '^' ? 'start' : 'place', from)
enddef

def OptionalList(from: number): dict<any>
  at += 1
  var row = Node('row', at)
  var parts: list<dict<any>> = []
  while at < len(text) && strpart(text, at, 1) !=# ']'
    var atom = Atom(false, Peek())
    add(parts, extend(atom, {atom_to: atom.to, multi_from: atom.to}))
  endwhile
  extend(row, {parts: parts, to: at})
  at += 1
  return extend(Node('list', from), {inside: row})
enddef

def External(): dict<any>
  const c = strpart(text, at + 2, 1)
  return c ==# '(' ? Group(3, true) : Take(c ==# 's' ? 'zs' : c ==# 'e' ? 'ze' : 'back', 3)
enddef

def Collection(kind: string): dict<any>
  const from = at
  const end = cut.CollectionEnd(text, at + Length())
  if end >= len(text)
    return Take('char', Length())
  endif
  at = end + 1
  const takes_end = strpart(text, from, at - from) =~# '\\n' && strpart(text, from, 3) !~# '\[^'
  return Node(kind ==# 'line' || takes_end ? 'line' : 'take', from)
enddef

def Underscored(): dict<any>
  const from = at
  const c = strpart(text, at + 2, 1)
  if c ==# '['
    at += 2
    const magic = level
    level = 2
    var node = Collection('line')
    level = magic
    return extend(node, {from: from})
  elseif c ==# '^' || c ==# '$'
    return Take(c ==# '^' ? 'start' : 'stop', 3)
  endif
  return Take('line', 3)
enddef
