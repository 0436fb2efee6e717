vim9script

# Matches whose pattern has more than 4,000 characters, as several that have a part of its branches each.

import './cut.vim'
import './pattern.vim'

# The lines of a match that is too long. The first branches come last, since of two matches the last defined is tried
# first. Any other line is answered as it is.
export def Split(line: string): list<string>
  if len(line) <= 4002 || line !~# '^syn match'
    return [line]
  endif
  final pieces = cut.Pieces(line, false)
  const at = index(mapnew(pieces, (_, piece) => piece.kind), 'pattern')
  if at < 0 || Characters(line, pieces[at]) <= 4002
    return [line]
  endif
  const [from, to] = [pieces[at].from, pieces[at].to]
  final group = LongestGroup(line, from + 1, to - 1)
  return group == [] ? [line] : Parts(line, from, to, group)
enddef

def Parts(line: string, from: number, to: number, group: list<number>): list<string>
  const [front, back] = [strpart(line, 0, group[0]), strpart(line, group[-1])]
  const room = 4000 - strchars(strpart(front, from + 1)) - strchars(strpart(back, 0, to - group[-1]))
  var [lines, part] = [[], '']
  for i in range(len(group) / 2)
    const branch = strpart(line, group[2 * i], group[2 * i + 1] - group[2 * i])
    const bar = i == 0 ? '' : strpart(line, group[2 * i - 1], group[2 * i] - group[2 * i - 1])
    if part !=# '' && strchars(part .. bar .. branch) > room
      insert(lines, front .. part .. back)
      part = branch
    else
      part ..= bar .. branch
    endif
  endfor
  return insert(lines, front .. part .. back)
enddef

def Characters(text: string, piece: dict<any>): number
  return strchars(strpart(text, piece.from, piece.to - piece.from))
enddef

# Of the groups of a pattern that stand in no other one, the longest: of each branch its two places.
def LongestGroup(text: string, from: number, to: number): list<number>
  var [best, places, depth, level, i] = [[], [], 0, 2, from]
  while i < to
    const [item, kind] = pattern.Item(text, i, level)
    const special = kind ==# '' && (item[0] !=# '\') == (level == 3)
    const end = i + len(item)
    if kind ==# 'level'
      level = stridx('VMmv', item[1])
    elseif item[-1] ==# '(' && (kind ==# '%' || special)
      depth += 1
      places = depth == 1 ? [end] : places
    elseif item[-1] ==# ')' && special
      depth -= 1
      best = depth == 0 && i - places[0] > get(best, -1, 0) - get(best, 0, 0) ? places + [i] : best
    elseif item[-1] ==# '|' && special && depth == 1
      places += [i, end]
    endif
    i = end
  endwhile
  return best
enddef
