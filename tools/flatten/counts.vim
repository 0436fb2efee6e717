vim9script

# Counts within counts. Where a text can be cut into turns in very many ways, an attempt that fails tries them all. Here
# are those spelled otherwise of which it is known that the same texts match in the same order.

import './tree.vim'
import './charset.vim'

var respelled: dict<dict<any>> = {}    # of each pattern that was read, the answer
var keeps_groups = false               # whether what its groups match counts elsewhere

# A pattern in which counts within counts are respelled, and the causes: what was respelled, and what is left though a
# text may be cut in many ways.
export def Respell(pattern: string): dict<any>
  if !HasCountedGroup(pattern) || pattern !~# '[*+{].*)\\\=[*+{]'
    return {pattern: pattern, causes: []}
  elseif !has_key(respelled, pattern)
    respelled[pattern] = Respelled(pattern)
  endif
  return respelled[pattern]
enddef

def HasCountedGroup(pattern: string): bool
  if stridx(pattern, ')') < 0
    return false
  endif
  for counted in [')*', ')\+', ')\{', ')+', '){', ')\*']
    if stridx(pattern, counted) >= 0
      return true
    endif
  endfor
  return false
enddef

def Respelled(given: string): dict<any>
  var [pattern, causes] = [given, []]
  while true
    var whole = tree.TreeOf(pattern)
    if !tree.HasNested()
      return {pattern: pattern, causes: causes}
    endif
    keeps_groups = given =~# '\\[1-9]\|\\z('
    const change = FirstChange(pattern, whole)
    if empty(change)
      final left = Ambiguous(pattern, whole)
      return {pattern: pattern, causes: causes + mapnew(left, (_, text) => 'a count within a count is left: ' .. text)}
    endif
    add(causes, 'a count within a count: ' .. change.from .. ' as ' .. change.to)
    pattern = strpart(pattern, 0, change.at) .. change.to .. strpart(pattern, change.at + len(change.from))
  endwhile
  return {}
enddef

# === What can be spelled otherwise ===

# The first group of a node that can be spelled otherwise, the inner ones first: where it stands, and its two texts.
def FirstChange(pattern: string, node: any): dict<any>
  for part in get(node, 'parts', [])
    final change = FirstChange(pattern, part)
    if !empty(change)
      return change
    endif
  endfor
  if !has_key(node, 'inside')
    return {}
  endif
  final within = FirstChange(pattern, node.inside)
  const counted = node.kind ==# 'group' && (node.multi ==# '*' || node.multi ==# '+') && HasCount(node.inside)
  if !empty(within) || !counted || keeps_groups && IsNumbered(node)
    return within
  endif
  return IsCovered(pattern, node) ? Once(pattern, node) : RunsOfOne(pattern, node)
enddef

# Whether a node has a group with a number.
def IsNumbered(node: any): bool
  if get(node, 'counted', false) || has_key(node, 'inside') && IsNumbered(node.inside)
    return true
  endif
  for part in get(node, 'parts', [])
    if IsNumbered(part)
      return true
    endif
  endfor
  return false
enddef

def HasCount(node: any): bool
  if tree.IsUnbounded(get(node, 'multi', ''))
    return true
  elseif has_key(node, 'inside')
    return node.multi !~# '^@.*[=!]$' && HasCount(node.inside)
  endif
  for part in get(node, 'parts', [])
    if HasCount(part)
      return true
    endif
  endfor
  return false
enddef

def TextOf(pattern: string, node: any): string
  return strpart(pattern, node.from, node.to - node.from)
enddef

# === Turns that one turn covers ===

# Whether each branch has a greedy count over all characters of the rest of the group, and only single characters behind
# it: then what several turns take one turn takes, its longest first.
def IsCovered(pattern: string, group: any): bool
  for branch in group.inside.parts
    var others = ''
    for other in group.inside.parts
      others ..= other is branch ? '' : charset.AllOf(pattern, other, false)
    endfor
    if len(branch.parts) > 1 || !IsCoveredRow(pattern, branch.parts[0].parts, others)
      return false
    endif
  endfor
  return true
enddef

def IsCoveredRow(pattern: string, pieces: any, others: string): bool
  for piece in pieces
    if index(['zs', 'ze', 'back', 'list'], piece.kind) >= 0
      return false
    endif
  endfor
  for i in range(len(pieces))
    if (pieces[i].multi ==# '*' || pieces[i].multi ==# '+') && AreSingle(pieces[i + 1 :])
      final rest = pieces[: i][: -2] + pieces[i + 1 :]
      return charset.Without(others .. AllOfAll(pattern, rest), Cover(pattern, pieces[i])) ==# ''
    endif
  endfor
  return false
enddef

def AllOfAll(pattern: string, pieces: any): string
  return join(mapnew(pieces, (_, piece) => charset.AllOf(pattern, piece, false)), '')
enddef

def AreSingle(pieces: any): bool
  for piece in pieces
    if piece.multi !=# '' || piece.kind ==# 'group'
      return false
    endif
  endfor
  return true
enddef

# What each turn of a piece takes as one character: an atom's set, or those of a choice's branches of one atom.
def Cover(pattern: string, piece: any): string
  if piece.kind !=# 'group'
    return charset.SetOf(pattern, piece, false)
  endif
  var set = ''
  for branch in piece.inside.parts
    final pieces = branch.parts[-1].parts
    if len(branch.parts) == 1 && len(pieces) == 1 && pieces[0].multi ==# ''
      set ..= charset.SetOf(pattern, pieces[0], false)
    endif
  endfor
  return set
enddef

# The group with at most one turn in place of any number, or with one in place of one or more.
def Once(pattern: string, group: any): dict<any>
  const front = strpart(pattern, group.from, group.multi_from - group.from)
  return {at: group.from, from: TextOf(pattern, group), to: front .. (group.multi ==# '+' ? '' : Multi(pattern, group, '='))}
enddef

# A count of one character, spelled as at the level of its piece.
def Multi(pattern: string, piece: any, multi: string): string
  return (piece.level == 3 ? '' : '\') .. multi
enddef

# === Runs that are cut into turns of one character ===

# A group with a branch in which a run of one atom has nothing about it but what may be absent: the run may be one
# character, as the next turns take the rest of it.
def RunsOfOne(pattern: string, group: any): dict<any>
  for branch in group.inside.parts
    final pieces = branch.parts[-1].parts
    for i in range(len(pieces))
      const set = IsRun(pieces, i) ? charset.SetOf(pattern, pieces[i], true) : ''
      const others = pieces[: i][: -2] + pieces[i + 1 :]
      const alone = len(group.inside.parts) == 1 && i == len(pieces) - 1 && AreOptional(others)
      if set !=# '' && len(branch.parts) == 1 && (alone || IsApart(pattern, group, branch, others, set))
        return OneOf(pattern, group, pieces[i], len(pieces) == 1)
      endif
    endfor
  endfor
  return {}
enddef

def IsRun(pieces: any, at: number): bool
  const multi = pieces[at].multi
  return (multi ==# '+' || multi ==# '*' && len(pieces) == 1) && index(['take', 'char', 'line'], pieces[at].kind) >= 0
enddef

# Whether each of the pieces is a character that may be absent: then each later end of a turn can be come to from each
# earlier one, and so they are tried from the last to the first.
def AreOptional(pieces: any): bool
  for piece in pieces
    if index(['take', 'char', 'line'], piece.kind) < 0 || piece.multi !~# '^[=?*]$'
      return false
    endif
  endfor
  return true
enddef

# Whether what stands about a run of a set may be absent, and neither that nor another branch can begin within the run.
def IsApart(pattern: string, group: any, branch: any, others: any, set: string): bool
  for piece in others
    const [first, empty] = charset.FirstOf(pattern, [piece])
    if !empty || first ==# '' || piece.multi =~# '@\|-' || charset.Meet(first, set)
      return false
    endif
  endfor
  for other in group.inside.parts
    if other isnot branch && charset.Meet(charset.FirstOf(pattern, other.parts[-1].parts)[0], set)
      return false
    endif
  endfor
  return true
enddef

# The group with one character in place of the run. One whose run may be empty may be empty itself.
def OneOf(pattern: string, group: any, run: any, alone: bool): dict<any>
  const front = strpart(pattern, group.from, run.multi_from - group.from)
  const back = strpart(pattern, run.to, group.multi_from - run.to)
  const multi = run.multi ==# '*' && alone ? '*' : strpart(pattern, group.multi_from, group.to - group.multi_from)
  const star = group.level < 2 && multi ==# '*' ? '\*' : multi
  return {at: group.from, from: TextOf(pattern, group), to: front .. back .. star}
enddef

# === What is left ===

# The groups under a count of which a text may be cut into turns in many ways, and in which none within is one.
def Ambiguous(pattern: string, node: any): list<string>
  var found = []
  for part in get(node, 'parts', [])
    found += Ambiguous(pattern, part)
  endfor
  if node.kind ==# 'group'
    found = Ambiguous(pattern, node.inside)
    if found == [] && tree.IsUnbounded(node.multi) && HasCount(node.inside) && MeetsItself(pattern, node.inside)
      found = [TextOf(pattern, node)]
    endif
  endif
  return found
enddef

def MeetsItself(pattern: string, choice: any): bool
  return MeetsNext(pattern, choice, charset.FirstOfChoice(pattern, choice)[0])
enddef

# Whether a count in a node may go on over a character with which what follows it begins as well: the rest of the turn, or
# the next one, which begins with 'next'.
def MeetsNext(pattern: string, node: any, next: string): bool
  final parts = node.parts
  for i in range(len(parts))
    if node.kind !=# 'row' && MeetsNext(pattern, parts[i], next)
      return true
    elseif node.kind ==# 'row'
      const [first, empty] = charset.FirstOf(pattern, parts[i + 1 :])
      if PieceMeets(pattern, parts[i], first .. (empty ? next : ''))
        return true
      endif
    endif
  endfor
  return false
enddef

def PieceMeets(pattern: string, piece: any, next: string): bool
  const first = charset.FirstOf(pattern, [piece])[0]
  if piece.multi[0] ==# '@'
    return false
  elseif tree.IsUnbounded(piece.multi) && charset.Meet(first, next)
    return true
  endif
  return piece.kind ==# 'group' && MeetsNext(pattern, piece.inside, next .. (tree.IsUnbounded(piece.multi) ? first : ''))
enddef
