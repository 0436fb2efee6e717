vim9script

# Lists that begin with ALL, ALLBUT or TOP. In Vim ALL and ALLBUT hold the items of one file alone, of the included file in
# which they stand or of those that are no included ones, for vimsyn those of all files. And in a file that is included
# by a cluster TOP is this cluster.

import './frame.vim'
import './cluster.vim'

# A list in words that mean the same to both. Groups that have items in other files alone are a cluster, which Settle
# makes or takes out.
export def Scoped(names: list<string>): list<string>
  const first = get(names, 0, '')
  final here = frame.frames[-1]
  if first ==# 'TOP' && here.cluster !=# ''
    return [here.cluster] + names[1 :]
  elseif first ==# 'ALL' || first ==# 'ALLBUT'
    here.has_all = true
    return ['ALLBUT'] + names[1 :] + [OthersOf(here.number)]
  endif
  return names
enddef

# Whether the first word of a list is another one now.
export def IsCluster(names: list<string>): bool
  return get(names, 0, '') ==# 'TOP' && frame.frames[-1].cluster !=# ''
enddef

def OthersOf(number: number): string
  return '@OtherFiles' .. number
enddef

# At the end, the clusters of groups of other files: the commands that make them.
export def Settle(): list<string>
  final flats = frame.done + frame.frames
  final clusters = FileClusters(flats)
  var commands: list<string> = []
  for here in filter(copy(flats), (_, flat) => flat.has_all)
    final others = filter(keys(clusters), (_, name) => index(split(name, '\.')[1 :], string(here.number)) < 0)
    if others == []
      TakeOut(here)
    else
      commands += [Cluster(OthersOf(here.number)[1 :], mapnew(others, (_, name) => '@' .. name))]
      const [file, lnum, text] = here.asked == [] ? [-1, 0, here.name] : here.asked
      frame.LeaveOut(file, lnum, 'ALL and ALLBUT hold the groups of one file', text)
    endif
  endfor
  return commands == [] ? [] : mapnew(items(clusters), (_, made) => Cluster(made[0], made[1])) + commands
enddef

def Cluster(name: string, members: list<string>): string
  return 'syn cluster ' .. name .. ' contains=' .. join(members, ',')
enddef

# Of the groups that have items in the same files a cluster each, named after the numbers of these.
def FileClusters(flats: list<dict<any>>): dict<list<string>>
  var names: dict<string> = {}
  var clusters: dict<list<string>> = {}
  for flat in flats
    for group in keys(extendnew(flat.tops, flat.contained))
      names[group] = get(names, group, 'Files') .. '.' .. flat.number
    endfor
  endfor
  for [group, name] in items(names)
    clusters[name] = add(get(clusters, name, []), cluster.groups[group])
  endfor
  return clusters
enddef

# Takes the cluster of other files out of the lists of a flat file.
def TakeOut(here: dict<any>)
  const name = OthersOf(here.number)
  for entry in here.entries
    if stridx(entry[2], name) >= 0
      entry[2] = substitute(substitute(entry[2], '=ALLBUT,' .. name .. '\>', '=ALL', 'g'), ',' .. name .. '\>', '', 'g')
    endif
  endfor
enddef
