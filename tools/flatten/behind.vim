vim9script

# Looks behind, at less cost.
#
# A look behind without a limit tries a start at each character back to the front of the line before. Where its part takes
# so many characters of a line at most, no start further back can match: it gets that number, which Vim counts in bytes and
# vimsyn in characters.
#
# And each column would pay for a look behind that stands at the front. So a look ahead goes before it, at the first
# character of what follows: what can't begin there needs no look behind.

import './tree.vim'
import './charset.vim'

const farthest = 200                   # a greater limit isn't told
const widest = 4                       # of one character, in bytes
const most_atoms = 20                  # of what follows a look behind, those with which it may begin

var respelled: dict<dict<any>> = {}    # of each pattern that was read, the answer
var told: dict<bool> = {}              # the causes that were told
var added: list<list<any>> = []        # what goes into the pattern that is read: places and texts
var causes: list<string> = []

# A pattern whose looks behind cost less, and the causes, each of them once for all patterns.
export def Respell(pattern: string): dict<any>
  if stridx(pattern, '@') < 0 || pattern !~# '@\d*<'
    return {pattern: pattern, causes: []}
  elseif !has_key(respelled, pattern)
    respelled[pattern] = Respelled(pattern)
  endif
  final news = filter(copy(respelled[pattern].causes), (_, cause) => !has_key(told, cause))
  for cause in news
    told[cause] = true
  endfor
  return {pattern: respelled[pattern].pattern, causes: news}
enddef

def Respelled(given: string): dict<any>
  [added, causes] = [[], []]
  Look(given, tree.TreeOf(given))
  var pattern = given
  for [place, text] in reverse(sort(added, (one, other) => one[0] - other[0]))
    pattern = strpart(pattern, 0, place) .. text .. strpart(pattern, place)
  endfor
  return {pattern: pattern, causes: causes}
enddef

# Adds what goes into a node.
def Look(pattern: string, node: any)
  if has_key(node, 'inside')
    Look(pattern, node.inside)
  endif
  const parts = get(node, 'parts', [])
  for i in range(len(parts))
    Look(pattern, parts[i])
    const multi = get(parts[i], 'multi', '')
    if multi !=# '' && multi =~# '^@\d*<'
      Limit(pattern, parts[i])
      Ahead(pattern, parts, i)
    endif
  endfor
enddef

# === The limit ===

def Limit(pattern: string, look: any)
  const most = look.multi =~# '\d' || MovesOrRefers(look) ? -1 : MostOnce(pattern, look)
  if most < 0 || most > farthest
    return
  endif
  const text = strpart(pattern, look.from, look.to - look.from)
  const [front, back] = [strpart(text, 0, strridx(text, '<')), strpart(text, strridx(text, '<'))]
  const limit = max([most, 1])
  add(added, [look.from + len(front), string(limit)])
  add(causes, 'a look behind gets a limit: ' .. text .. ' as ' .. front .. limit .. back)
enddef

# Whether a node moves the match's ends, or asks for the text of a group.
def MovesOrRefers(node: any): bool
  if index(['zs', 'ze', 'back'], node.kind) >= 0 || has_key(node, 'inside') && MovesOrRefers(node.inside)
    return true
  endif
  for part in get(node, 'parts', [])
    if MovesOrRefers(part)
      return true
    endif
  endfor
  return false
enddef

# The most bytes that a node takes, or -1 where there is no bound, none is known, or a line's end may be among them.
def Most(pattern: string, node: any): number
  if IsLook(node)
    return 0
  endif
  const [turns, once] = [Turns(get(node, 'multi', '')), MostOnce(pattern, node)]
  return turns < 0 || once < 0 ? -1 : turns * once
enddef

def IsLook(node: any): bool
  const multi = get(node, 'multi', '')
  return multi !=# '' && multi =~# '^@.*[=!]$'
enddef

# The most turns of a count, or -1.
def Turns(multi: string): number
  if multi[0] !=# '{'
    return multi[0] ==# '*' || multi[0] ==# '+' ? -1 : 1
  endif
  final m = matchlist(multi, '^{-\=\(\d*\),\=\(\d*\)}$')
  return empty(m) || tree.IsUnbounded(multi) ? -1 : max([str2nr(m[1]), str2nr(m[2])])
enddef

# The same without the node's count.
def MostOnce(pattern: string, node: any): number
  if has_key(node, 'inside')
    return Most(pattern, node.inside)
  elseif has_key(node, 'parts')
    return MostOfParts(pattern, node)
  elseif node.kind ==# 'take'
    return widest
  elseif node.kind ==# 'char'
    return MostOfCharacter(Atom(pattern, node))
  endif
  return index(placed, node.kind) >= 0 ? 0 : -1
enddef

const placed = ['start', 'stop', 'word', 'wordend', 'place']

def MostOfParts(pattern: string, node: any): number
  var each: list<number> = []
  for part in node.parts
    add(each, Most(pattern, part))
  endfor
  if min(each) < 0 || node.kind ==# 'both' && len(each) > 1
    return -1
  endif
  return node.kind ==# 'choice' ? max(each) : reduce(each, (sum, most) => sum + most, 0)
enddef

# A letter of ASCII is one byte, but where case is ignored K and S have another one beyond it. A tilde may be a text.
def MostOfCharacter(text: string): number
  if text[-1] ==# '~'
    return -1
  endif
  const plain = len(text) == 1 || len(text) == 2 && text[0] ==# '\'
  return plain && text[-1] !~? '[ks]' ? 1 : max([widest, len(text)])
enddef

def Atom(pattern: string, node: any): string
  return strpart(pattern, node.from, node.atom_to - node.from)
enddef

# === The look ahead ===

# Adds a look ahead before a look behind that stands in a row behind nothing but places, if what follows it begins with
# one of a few atoms.
def Ahead(pattern: string, pieces: any, at: number)
  final before = pieces[: at][: -2]
  if index(mapnew(before, (_, piece) => IsPlace(piece)), false) >= 0 || !CanStandBehind(pattern, pieces[0])
    return
  endif
  const level = pieces[0].level
  final [atoms, sure, _] = Firsts(pattern, pieces[at + 1 :], level)
  if !sure || len(atoms) > most_atoms
    return
  endif
  const escape = level == 3 ? '' : '\'
  final distinct = uniq(sort(atoms))
  const choice = len(distinct) == 1 ? distinct[0] : escape .. '%(' .. join(distinct, escape .. '|') .. escape .. ')'
  add(added, [pieces[0].from, choice .. escape .. '@='])
  add(causes, 'a look behind waits for what follows it: ' .. strpart(pattern, pieces[at].from, pieces[at].to - pieces[at].from))
enddef

# (Not behind the start of a line, where few columns get, nor behind a look ahead.)
def IsPlace(piece: any): bool
  return IsLook(piece) ? piece.multi !~# '^@=' : index(['word', 'wordend'], piece.kind) >= 0
enddef

# Whether a piece means the same where it isn't the first one.
def CanStandBehind(pattern: string, piece: any): bool
  return strpart(pattern, piece.from, 2) !~# '^\\\=[*^=+?{@&~]'
enddef

# The atoms with one of which a row of pieces begins, and whether it is sure to take one of them. Where they aren't all
# known it isn't sure either.
def Firsts(pattern: string, pieces: any, level: number): list<any>
  var atoms = []
  for piece in pieces
    if !IsLook(piece) && index(placed + ['zs', 'ze'], piece.kind) < 0
      const [found, sure, known] = FirstsOfPiece(pattern, piece, level)
      atoms += found
      if !known || sure && !charset.MayBeNone(piece)
        return [atoms, known, known]
      endif
    endif
  endfor
  return [atoms, false, true]
enddef

def FirstsOfPiece(pattern: string, piece: any, level: number): list<any>
  if piece.kind ==# 'group'
    return FirstsOfChoice(pattern, piece.inside, level)
  elseif index(['take', 'char', 'line', 'end'], piece.kind) < 0 || piece.level != level
    return [[], false, false]
  endif
  const text = Atom(pattern, piece)
  return text =~# '^[*^$~]$' ? [[], false, false] : [[text], true, true]
enddef

def FirstsOfChoice(pattern: string, choice: any, level: number): list<any>
  var [atoms, all_sure, all_known] = [[], true, true]
  for branch in choice.parts
    const [found, sure, known] = Firsts(pattern, branch.parts[-1].parts, level)
    atoms += found
    all_sure = all_sure && sure
    all_known = all_known && known
  endfor
  return [atoms, all_sure, all_known]
enddef
