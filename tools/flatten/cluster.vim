vim9script

# Clusters. One whose list begins with TOP or its kin is written out where its file ends.

import './cut.vim'
import './frame.vim'

export var groups: dict<string> = {}     # of each group with items, in small letters, its name
var clusters: dict<list<string>> = {}    # of each cluster, in small letters, its list
var special: dict<dict<any>> = {}        # those that begin with TOP or its kin, and the flat file in which it was set

# A cluster command, past its first two words: what stands for it, and a cause.
export def FlatCluster(rest: string, Names: func(string): list<string>): list<string>
  const name = matchstr(rest, '^[^ \t|]*')
  const key = tolower(name)
  var made = 'syn cluster ' .. name
  var from = matchend(rest, '^[^ \t|]*\s*')
  while strpart(rest, from) =~? '^\%(contains\|add\|remove\)\s*='
    const how = tolower(matchstr(rest, '^\a\+', from))
    const begin = matchend(rest, '^\a\+\s*=\s*', from)
    const end = cut.ListEnd(rest, begin)
    const names = Names(strpart(rest, begin, end - begin))
    Change(key, how, names)
    made ..= ' ' .. how .. '=' .. join(names, ',')
    from = matchend(rest, '\s*', end)
  endwhile
  const first = get(get(clusters, key, []), 0, '')
  if first =~? '^\%(TOP\|ALL\|ALLBUT\|CONTAINED\)$'
    special[key] = frame.frames[-1]
    return ['', first .. ' in a cluster is put as the groups that it stands for']
  endif
  return [made, '']
enddef

export def Change(name: string, how: string, names: list<string>)
  var old = how ==# 'contains' ? [] : get(clusters, name, [])
  if how ==# 'remove'
    const less = mapnew(names, (_, n) => tolower(n))
    clusters[name] = filter(old[:], (_, n) => index(less, tolower(n)) < 0)
  else
    clusters[name] = old + names
  endif
enddef

# Writes the special clusters of the innermost flat file out as the groups that their lists have.
export def WriteOut()
  final here = frame.frames[-1]
  for [name, at] in items(special)
    if at is here
      frame.Keep(-1, 0, WrittenOut(name, here))
      remove(special, name)
    endif
  endfor
enddef

def WrittenOut(name: string, at: dict<any>): string
  final list = clusters[name]
  const first = toupper(list[0])
  var less = {}
  AddMembers(less, list[1 :], 1)
  final from = first ==# 'TOP' ? at.tops : first ==# 'CONTAINED' ? at.contained : extendnew(at.tops, at.contained)
  final names = filter(sort(keys(from)), (_, group) => first ==# 'ALL' || !has_key(less, group))
  return 'syn cluster ' .. name .. ' contains=' .. join(mapnew(names, (_, group) => groups[group]), ',')
enddef

def AddMembers(members: dict<any>, list: list<string>, depth: number)
  for name in list
    if name[0] ==# '@'
      if depth < 30
        AddMembers(members, get(clusters, tolower(name[1 :]), []), depth + 1)
      endif
    elseif name =~# '[\\.*^$~[]'
      for group in filter(keys(groups), (_, group) => group =~? '^\%(' .. name .. '\)$')
        members[group] = 1
      endfor
    else
      members[tolower(name)] = 1
    endif
  endfor
enddef
