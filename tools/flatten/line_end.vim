vim9script

# Patterns that begin at a line's end, or go over it, in words that mean the same to Vim and to vimsyn.

import './tree.vim'
import './pattern.vim'

# === Items that begin at a line's end ===

# A front of a pattern that takes a character of the line, or is at its start. (Spelled as at \m.)
const plain_front = '^\%(\\[cC]\)*\%(\^\|\\<\|\%([^\\^$*[~]\|\\[sSdDxXoOwWhHaAlLuU.*~\\/^$[]\|\[[^]\\]\+\]\)\%($\|[^\\*]\|\\[^=?{@]\)\)'

var not_at_end: dict<string> = {}    # of each pattern that was read for it, the answer

# In Vim nothing begins at the end of a line that isn't empty. A pattern whose item may begin there asks for a character
# or for the line's start. 'empty' says whether it counts where the item takes nothing.
export def NotAtEnd(given: string, empty: bool): string
  if empty ? IsPlain(given) : stridx(given, '\n') < 0 && stridx(given, '\_') < 0
    return given
  endif
  const key = given .. (empty ? '+' : '-')
  if !has_key(not_at_end, key)
    not_at_end[key] = Guarded(given, empty)
  endif
  return not_at_end[key]
enddef

# Whether a pattern of one branch has such a front. (The first character of most says it.)
def IsPlain(given: string): bool
  if stridx(given, '\|') >= 0 || stridx(given, '\zs') >= 0 || stridx(given, '\v') >= 0
    return false
  endif
  const [first, second] = [strpart(given, 0, 1), strpart(given, 1, 1)]
  const usual = first <# "\x7f" && stridx('\$*[~', first) < 0 && stridx('\*', second) < 0
  return first ==# '^' || usual || given =~# plain_front
enddef

def Guarded(given: string, empty: bool): string
  var whole = tree.TreeOf(given)
  var [made, from] = ['', 0]
  for branch in whole.parts
    const place = GuardPlace(branch, empty)
    if place >= 0
      made ..= strpart(given, from, place - from) .. pattern.Spelled('%(^|.@=)', LevelAt(given, place))
      from = place
    endif
  endfor
  return made .. strpart(given, from)
enddef

# Where the guard of a branch stands, or -1: behind its last '\zs', else at its front.
def GuardPlace(branch: any, empty: bool): number
  var pieces = branch.parts[-1].parts
  var [begin, place] = [0, branch.flags]
  for i in range(len(pieces))
    if pieces[i].kind ==# 'zs'
      [begin, place] = [i + 1, pieces[i].to]
    endif
  endfor
  const [passes, takes] = RowAtEnd(pieces[begin :])
  return takes || empty && passes ? place : -1
enddef

# Whether a row may match nothing at a line's end (behind characters of the line), and whether it may take the end.
def RowAtEnd(pieces: any): list<bool>
  var [passes, takes] = [true, false]
  for piece in pieces
    if passes
      const [passed, took] = PieceAtEnd(piece)
      takes = takes || took
      passes = passed
    endif
  endfor
  return [passes, takes]
enddef

def PieceAtEnd(piece: any): list<bool>
  const [passes, takes] = AtomAtEnd(piece)
  if piece.multi ==# ''
    return [passes, takes]
  elseif piece.multi =~# '!$\|<=$'
    return [true, false]
  elseif piece.multi ==# '@='
    return [passes || takes, false]
  endif
  return [passes || piece.multi =~# '^[*=?]\|^{-\=\%(0\|,\|}\)', takes]
enddef

def AtomAtEnd(piece: any): list<bool>
  if piece.kind ==# 'group'
    return ChoiceAtEnd(piece.inside)
  elseif piece.kind ==# 'list'
    return [true, RowAtEnd(piece.inside.parts)[1]]
  endif
  const takes = piece.kind ==# 'line' || piece.kind ==# 'end' || piece.kind ==# 'back'
  return [!takes && index(['take', 'char', 'start', 'word'], piece.kind) < 0, takes]
enddef

def ChoiceAtEnd(choice: any): list<bool>
  var [passes, takes] = [false, false]
  for branch in choice.parts
    const [passed, took] = RowAtEnd(branch.parts[-1].parts)
    passes = passes || passed
    takes = takes || took
  endfor
  return [passes, takes]
enddef

# The level of magic at a place of a pattern.
def LevelAt(given: string, place: number): number
  tree.TreeOf(strpart(given, 0, place))
  return tree.LastLevel()
enddef

# === Starts that go over a line's end ===

# Where a start goes over a line's end, Vim seeks the region's end from the line on in which the start begins. So the
# start takes one character, and looks at the rest.
export def WithinLine(given: string): string
  if stridx(given, '\n') < 0 && stridx(given, '\_') < 0
    return given
  endif
  var whole = tree.TreeOf(given)
  const level = tree.LastLevel()
  if given =~# '\\ze' || !Crosses(whole)
    return given
  endif
  return '\%(' .. given .. (level == 2 ? '' : '\m') .. '\)\@=.\='
enddef

# Whether what a node takes may go over a line's end.
def Crosses(node: any): bool
  if node.kind ==# 'line' || node.kind ==# 'end'
    return true
  elseif get(node, 'multi', '') =~# '^@.*[=!]$'
    return false
  elseif has_key(node, 'inside')
    return Crosses(node.inside)
  endif
  for part in get(node, 'parts', [])
    if Crosses(part)
      return true
    endif
  endfor
  return false
enddef
