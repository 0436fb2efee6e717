vim9script

# The sets of characters that the atoms of a pattern take. A set is a text of the characters below 256 and of some others
# that are in it, a line end among them where a line end is taken.

import './tree.vim'

const alphabet = join(map(range(1, 9) + range(11, 255) + [0x101, 0x3b1, 0x4e00, 0x1f600], (_, code) => nr2char(code)), '')

const letters = split(alphabet, '\zs')

var sets: dict<string> = {}    # of atoms as they are spelled, what they take

# What an atom takes, with case ignored or not. An atom that takes no room takes nothing.
export def SetOf(pattern: string, atom: any, ignore: bool): string
  const kind = atom.kind
  if kind ==# 'end'
    return "\n"
  elseif kind !=# 'take' && kind !=# 'line' && kind !=# 'char'
    return ''
  endif
  const text = strpart(pattern, atom.from, atom.multi_from - atom.from)
  const plain = kind ==# 'char' && (strchars(text) == 1 || text =~# '^\\[^[:alnum:]]$')
  if plain
    return ignore ? tolower(text[-1]) .. toupper(text[-1]) : text[-1]
  endif
  const spelled = (ignore ? '\c' : '\C') .. ['\V', '\M', '\m', '\v'][atom.level] .. text
  if !has_key(sets, spelled)
    sets[spelled] = Left(letters, substitute(alphabet, spelled, '', 'g'))
  endif
  return sets[spelled] .. (kind ==# 'line' ? "\n" : '')
enddef

# What is in one set and not in another.
export def Without(set: string, other: string): string
  return Left(split(set, '\zs'), other)
enddef

def Left(set: list<string>, other: string): string
  var left = ''
  for c in set
    if stridx(other, c) < 0
      left ..= c
    endif
  endfor
  return left
enddef

export def Meet(set: string, other: string): bool
  for c in split(set, '\zs')
    if stridx(other, c) >= 0
      return true
    endif
  endfor
  return false
enddef

# All that the atoms of a node take.
export def AllOf(pattern: string, node: any, ignore: bool): string
  if has_key(node, 'inside')
    return node.multi =~# '^@.*[=!]$' ? '' : AllOf(pattern, node.inside, ignore)
  elseif !has_key(node, 'parts')
    return SetOf(pattern, node, ignore)
  endif
  var set = ''
  for part in node.parts
    set ..= AllOf(pattern, part, ignore)
  endfor
  return set
enddef

# With what a row of pieces may begin, and whether it may take nothing. Behind the stop of a line only its end follows.
export def FirstOf(pattern: string, pieces: any): list<any>
  var set = ''
  for piece in pieces
    if piece.kind ==# 'stop'
      return [set .. "\n", false]
    endif
    const [first, empty] = FirstOfPiece(pattern, piece)
    set ..= first
    if !empty
      return [set, false]
    endif
  endfor
  return [set, true]
enddef

def FirstOfPiece(pattern: string, piece: any): list<any>
  if piece.multi !=# '' && piece.multi =~# '^@.*[=!]$'
    return ['', true]
  elseif piece.kind ==# 'group' || piece.kind ==# 'list'
    const [set, empty] = piece.kind ==# 'group' ? FirstOfChoice(pattern, piece.inside) : FirstOf(pattern, piece.inside.parts)
    return [set, empty || piece.kind ==# 'list' || MayBeNone(piece)]
  elseif piece.kind ==# 'back'
    return [alphabet .. "\n", true]
  endif
  const set = SetOf(pattern, piece, true)
  return [set, set ==# '' || MayBeNone(piece)]
enddef

export def FirstOfChoice(pattern: string, choice: any): list<any>
  var [set, empty] = ['', false]
  for branch in choice.parts
    const [first, none] = FirstOf(pattern, branch.parts[-1].parts)
    set ..= first
    empty = empty || none
  endfor
  return [set, empty]
enddef

# Whether a count may be none.
export def MayBeNone(piece: any): bool
  return piece.multi !=# '' && piece.multi =~# '^[*=?]\|^{-\=0*\%(,\|}\)\|^{-\=}'
enddef
