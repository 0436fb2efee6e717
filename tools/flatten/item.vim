vim9script

import './pattern.vim'
import './line_end.vim'

# Matches and regions in words that mean the same to Vim and to vimsyn, where one word means two things to them.
#
# An item is a list of parts, of which each is a dictionary: its kind (as of pieces, flatten/cut.vim), its text, and
# the gap behind it.

var own_groups: dict<list<string>> = {}    # of each group that is its own matchgroup, in small letters: the group in
                                           # its place, and its own name

export def Part(kind: string, text: string, gap: string): dict<string>
  return {kind: kind, text: text, gap: gap}
enddef

def TextOf(parts: list<dict<string>>): string
  var text = ''
  for part in parts
    text ..= part.text .. part.gap
  endfor
  return text
enddef

# The text of an item of a kind ('match', 'region') and a group. Causes are added to a list.
export def Respell(sub: string, group: string, given: list<dict<string>>, causes: list<string>): string
  var parts = FirstLists(given, causes)
  if sub ==# 'match'
    return TextOf(MatchEnds(MatchBegin(parts, causes), causes))
  endif
  var region = StartsWithin(RegionOf(parts), causes)
  var starts = StartsTurned(region, causes)
  return RegionText(EndAreas(OwnMatchgroups(starts, group, causes), causes))
enddef

# === Lists ===

# Of a list that is given twice Vim keeps the first one.
export def FirstLists(parts: list<dict<string>>, causes: list<string>): list<dict<string>>
  var made: list<dict<string>> = []
  var seen: dict<bool> = {}
  for part in parts
    if part.kind !=# 'list'
      add(made, part)
      continue
    endif
    const key = KeyOf(part.text)
    if has_key(seen, key)
      add(causes, 'given twice, of which the first counts: ' .. part.text)
    else
      add(made, part)
      seen[key] = true
    endif
  endfor
  return made
enddef

# What stands before the '=' of a list or of a pattern, in small letters.
def KeyOf(text: string): string
  return tolower(trim(strpart(text, 0, stridx(text, '='))))
enddef

# === Offsets ===

# The ends of a match count from its start by one character less than those of a region.
def MatchEnds(parts: list<dict<string>>, causes: list<string>): list<dict<string>>
  for part in parts
    if part.kind ==# 'offsets' && part.text =~# '[mh]e=[sb]'
      add(causes, 'an end counted from the start, of a match: ' .. part.text)
      part.text = substitute(part.text, '\([mh]e=[sb]\)\([+-]\d\+\)\=',
        (m) => m[1] .. Signed(str2nr(m[2]) - 1), 'g')
    endif
  endfor
  return parts
enddef

def Signed(number: number): string
  return number < 0 ? string(number) : '+' .. number
enddef

# === Patterns at a line's end ===

# A match doesn't begin at a line's end, nor waits what follows it, if it takes nothing there.
def MatchBegin(parts: list<dict<string>>, causes: list<string>): list<dict<string>>
  const waits = HasWord(parts, 'skipnl') || HasWord(parts, 'skipempty')
  for part in parts
    if part.kind ==# 'pattern'
      part.text = Changed(part.text, line_end.NotAtEnd(Inner(part.text), waits), 'not at a line''s end', causes)
    endif
  endfor
  return parts
enddef

export def HasWord(parts: list<dict<string>>, word: string): bool
  for part in parts
    if part.kind ==# 'word' && part.text ==? word
      return true
    endif
  endfor
  return false
enddef

def Inner(text: string): string
  return strpart(text, 1, len(text) - 2)
enddef

# Another pattern in place of one between delimiters, and a cause where it differs.
def Changed(given: string, made: string, cause: string, causes: list<string>): string
  if made ==# Inner(given)
    return given
  endif
  add(causes, cause .. ': ' .. given)
  return pattern.Delimited(made, given[0])
enddef

# Nor does a region. A start that goes over a line's end takes one character, unless an area or an offset goes by it.
def StartsWithin(region: list<dict<string>>, causes: list<string>): list<dict<string>>
  const oneline = HasWord(region, 'oneline')
  for part in region
    if part.kind ==# 'start'
      if !oneline && part.matchgroup ==? 'NONE' && stridx(part.offsets, '=e') < 0
        const within = line_end.WithinLine(Inner(part.pattern))
        part.pattern = Changed(part.pattern, within, 'the end is sought from its first line on', causes)
      endif
      const begin = line_end.NotAtEnd(Inner(part.pattern), true)
      part.pattern = Changed(part.pattern, begin, 'not at a line''s end', causes)
    endif
  endfor
  return region
enddef

# === Regions ===

# A region as its parts, in which a key, its pattern and offsets are one part, whose 'matchgroup' it has.
def RegionOf(parts: list<dict<string>>): list<dict<string>>
  var matchgroup = 'NONE'
  var made: list<dict<string>> = []
  for part in parts
    const may_be = part.kind ==# 'word' && strpart(part.text, 0, 1) ==? 'm'
    const value = may_be ? matchstr(part.text, '\c^matchgroup\s*=\s*\zs.*') : ''
    if value !=# ''
      matchgroup = value
    elseif part.kind ==# 'pattern' || part.kind ==# 'offsets'
      made[-1][part.kind] = part.text
    elseif part.kind ==# 'key'
      add(made, {kind: KeyOf(part.text), matchgroup: matchgroup, pattern: '', offsets: ''})
    else
      add(made, part)
    endif
  endfor
  return made
enddef

# The text again, each matchgroup before the first pattern that has it.
def RegionText(region: list<dict<string>>): string
  var [made, matchgroup] = ['', 'NONE']
  for part in region
    if !has_key(part, 'matchgroup')
      made ..= trim(part.text) .. ' '
      continue
    endif
    if part.kind !=# 'skip' && part.matchgroup !=? matchgroup
      matchgroup = part.matchgroup
      made ..= 'matchgroup=' .. matchgroup .. ' '
    endif
    made ..= part.kind .. '=' .. part.pattern .. part.offsets .. ' '
  endfor
  return made
enddef

# Of several starts at one place Vim takes the first one, and vimsyn the last: they stand the other way round.
def StartsTurned(region: list<dict<string>>, causes: list<string>): list<dict<string>>
  var starts = []
  for part in region
    if part.kind ==# 'start'
      add(starts, part)
    endif
  endfor
  if len(starts) < 2
    return region
  endif
  add(causes, 'starts in the other order')
  var [made, left] = [[], reverse(starts)]
  for part in region
    add(made, part.kind ==# 'start' ? remove(left, 0) : part)
  endfor
  return made
enddef

# A matchgroup of the region's own group counts for starts, in which nothing else may start then, and not for ends.
def OwnMatchgroups(region: list<dict<string>>, group: string, causes: list<string>): list<dict<string>>
  if !HasMatchgroup(region, group)
    return region
  endif
  const other = OwnGroup(group)
  add(causes, 'a matchgroup of its own group: ' .. other)
  var made = []
  for part in region
    const own = get(part, 'matchgroup', '') ==? group
    add(made, own ? extend(copy(part), {matchgroup: part.kind ==# 'start' ? other : 'NONE'}) : part)
  endfor
  return made
enddef

def HasMatchgroup(region: list<dict<string>>, group: string): bool
  for part in region
    if has_key(part, 'matchgroup') && part.matchgroup ==? group
      return true
    endif
  endfor
  return false
enddef

# The area of an end goes to its 'he' in Vim, and to its 'me' in vimsyn. Where both count from one place, the nearer one
# is told.
def EndAreas(region: list<dict<string>>, causes: list<string>): list<dict<string>>
  for part in region
    if part.kind ==# 'end' && part.offsets !=# '' && part.matchgroup !=? 'NONE' && part.offsets =~# '[mh]e='
      const made = AreaOffsets(part.offsets)
      if made !=# part.offsets
        add(causes, 'the end''s area goes to its highlight''s end: ' .. part.offsets)
        part.offsets = made
      endif
    endif
  endfor
  return region
enddef

def AreaOffsets(offsets: string): string
  const [me, he] = [matchstr(offsets, '\<me=\zs[^,]*'), matchstr(offsets, '\<he=\zs[^,]*')]
  const end = he ==# '' ? 'e' : he
  if me !=# '' && me[0] !=# end[0]
    return offsets
  endif
  const least = min([str2nr(end[1 :]), me ==# '' ? 65535 : str2nr(me[1 :])] + (end[0] ==# 'e' ? [0] : []))
  const others = filter(split(offsets, ','), (_, offset) => offset !~# '^[mh]e=')
  return join(least == 0 && end[0] ==# 'e' ? others : ['me=' .. end[0] .. Signed(least)] + others, ',')
enddef

# The group in place of a group that is its own matchgroup, which is linked to it.
def OwnGroup(group: string): string
  const key = tolower(group)
  if !has_key(own_groups, key)
    var name = group .. 'Own'
    while hlexists(name)
      name ..= 'Own'
    endwhile
    own_groups[key] = [name, group]
  endif
  return own_groups[key][0]
enddef

# The links of these groups.
export def OwnLinks(): list<string>
  return mapnew(values(own_groups), (_, names) => 'hi def link ' .. names[0] .. ' ' .. names[1])
enddef
