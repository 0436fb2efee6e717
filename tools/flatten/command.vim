vim9script

# The flat form of a command: the lines that stand for it, and the causes why they don't mean all that it means.

import './cut.vim'
import './frame.vim'
import './cluster.vim'
import './scope.vim'
import './pattern.vim'
import './item.vim'
import './counts.vim'
import './behind.vim'
import './long_match.vim'

var reserved: dict<string> = {}    # of each group with a reserved name, in small letters, the name that it gets
var colours: dict<string> = {}

export def SetColours(table: dict<string>)
  colours = table
enddef

def Form(lines: list<string>, causes: list<string>): dict<list<string>>
  return {lines: lines, causes: causes}
enddef

export def Flat(text: string): dict<list<string>>
  return strpart(text, 0, 2) ==# 'sy' ? FlatSyntax(text) : FlatHighlight(text)
enddef

def FlatSyntax(text: string): dict<list<string>>
  const sub = cut.Head(text)[0]
  if sub ==# 'match' || sub ==# 'region'
    return FlatItem(text)
  elseif sub ==# 'keyword'
    return FlatKeywords(text)
  endif
  const rest = strpart(text, matchend(text, '^\a\+\s*\a*\s*'))
  if sub ==# 'cluster'
    return FlatCluster(rest)
  elseif sub ==# 'sync' && rest !~# '^fromstart\>'
    return Form([], ['painting starts from the first line'])
  elseif sub =~# '^\%(on\|off\|enable\|manual\|reset\)$'
    return Form([], ['not in this profile'])
  elseif sub ==# '' || sub ==# 'iskeyword' || sub ==# 'list' || sub ==# 'case' && rest ==# ''
    return Form([], [])
  elseif sub ==# 'case'
    return Form(['syn case ' .. tolower(rest)], [])
  elseif sub ==# 'clear'
    frame.ForgetLate(split(tolower(rest)))
  endif
  return Form([substitute('syn ' .. sub .. ' ' .. rest, '\s*$', '', '')], [])
enddef

def FlatCluster(rest: string): dict<list<string>>
  const [line, cause] = cluster.FlatCluster(rest, ClusterNames)
  return Form(line ==# '' ? [] : [line], cause ==# '' ? [] : [cause])
enddef

# The names of a cluster's list.
def ClusterNames(text: string): list<string>
  final names = Names(text)
  return scope.IsCluster(names) ? scope.Scoped(names) : names
enddef

# === Items ===

# A match or region: its patterns and lists in their usual spelling.
def FlatItem(text: string): dict<list<string>>
  const [sub, given, _] = cut.Head(text)
  const group = given ==# '' ? '' : GroupName(given)
  var parts: list<dict<string>> = []
  var causes: list<string> = []
  var piece: dict<any> = {}
  for next in cut.KnownPieces(text)
    if piece != {}
      const flat = FlatPiece(piece.kind, strpart(text, piece.from, piece.to - piece.from), causes)
      add(parts, item.Part(piece.kind, flat, strpart(text, piece.to, next.from - piece.to)))
    endif
    piece = next
  endfor
  if group !=# ''
    parts[0].text = HeadText(sub, group)
  endif
  NoteGroup(group, item.HasWord(parts, 'contained'))
  if causes != [] && match(causes, '^left out') >= 0
    return Form([], causes)
  endif
  const made = cut.Trimmed(item.Respell(sub, group, parts, causes))
  return Form(long_match.Split(made), causes)
enddef

# A piece. The causes why it doesn't mean all that it means are added to a list.
def FlatPiece(kind: string, piece: string, causes: list<string>): string
  if kind ==# 'pattern'
    return FlatPattern(piece, causes)
  elseif kind ==# 'list'
    extend(causes, ListCauses(piece))
    return FlatList(piece)
  elseif stridx(piece, '|') > 0 && piece =~? '^cchar\s*=\s*|'
    add(causes, 'this character can''t be told')
    return ''
  endif
  return piece
enddef

def FlatPattern(piece: string, causes: list<string>): string
  const inner = strpart(piece, 1, len(piece) - 2)
  const [usual, cause] = pattern.Respell(inner)
  final counted = counts.Respell(usual)
  final limited = behind.Respell(counted.pattern)
  if cause !=# ''
    add(causes, cause)
  endif
  extend(extend(causes, counted.causes), limited.causes)
  return limited.pattern ==# inner ? piece : pattern.Delimited(limited.pattern, piece[0])
enddef

def ReservedCause(name: string): string
  return 'a reserved name, put as ' .. name
enddef

def FlatHead(text: string): string
  const [sub, group, _] = cut.Head(text)
  return group ==# '' ? text : HeadText(sub, GroupName(group))
enddef

def HeadText(sub: string, group: string): string
  return 'syn ' .. sub .. ' ' .. group .. ' '
enddef

const reserved_words = {none: true, all: true, allbut: true, top: true, contained: true, contains: true}

# A group whose name is reserved gets another.
def GroupName(name: string): string
  const key = tolower(name)
  if has_key(reserved_words, key)
    reserved[key] = name .. 'Group'
  endif
  return get(reserved, key, name)
enddef

# Notes the group of an item, and whether 'contained' is among its words.
def NoteGroup(name: string, contained: bool)
  const key = tolower(name)
  cluster.groups[key] = name
  frame.frames[-1][contained ? 'contained' : 'tops'][key] = 1
enddef

def WordsOf(text: string, pieces: list<dict<any>>): list<string>
  var words = []
  for piece in pieces
    if piece.kind ==# 'word'
      add(words, tolower(strpart(text, piece.from, piece.to - piece.from)))
    endif
  endfor
  return words
enddef

# A list of names without empty ones.
def FlatList(text: string): string
  if IsUsualList(text)
    return text
  endif
  const equals = stridx(text, '=')
  const key = trim(strpart(text, 0, equals))
  final names = Names(strpart(text, equals + 1))
  return key .. '=' .. join(key ==? 'nextgroup' ? names : scope.Scoped(names), ',')
enddef

# Whether a list is sure to stay as it is.
def IsUsualList(text: string): bool
  for other in [' ', "\t", ',,', '|', '=,', '=ALL', '=TOP']
    if stridx(text, other) >= 0
      return false
    endif
  endfor
  return reserved == {} && strpart(text, len(text) - 1) !=# ',' && stridx(tolower(text), 'none') < 0
enddef

def ListCauses(text: string): list<string>
  return stridx(text, 'TOP') > 0 && scope.IsCluster(Names(matchstr(text, '=\s*\zs.*'))) ? ['TOP is the cluster of this file: ' .. text] : []
enddef

def Names(text: string): list<string>
  final names = stridx(text, ' ') < 0 && stridx(text, "\t") < 0 && stridx(text, ',,') < 0 ? split(text, ',')
    : filter(map(split(text, ','), (_, name) => trim(name)), (_, name) => name !=# '')
  var made = names[: 0]
  for name in names[1 :]
    if name !=? 'none' || has_key(reserved, 'none')
      add(made, get(reserved, tolower(name), name))
    endif
  endfor
  return stridx(text, '|') < 0 ? made : WithoutBars(made)
enddef

# A pattern of names with a bar, which would end the command, is put as the groups that it stands for.
def WithoutBars(names: list<string>): list<string>
  var made = []
  for name in names
    made += stridx(name, '|') < 0 ? [name]
      : filter(getcompletion('', 'highlight'), (_, group) => group =~? '^\%(' .. name .. '\)$')
  endfor
  return made
enddef

# === Keywords ===

# Keywords: words that only Vim takes are put as matches where they can match at all.
def FlatKeywords(text: string): dict<list<string>>
  const [sub, group, from] = cut.Head(text)
  const rest = strpart(text, from)
  const words_between_blanks = ' ' .. tr(tolower(rest), "\t", ' ') .. ' '
  if IsUsualWords(text) && !HasOther(words_between_blanks)
    const name = GroupName(group)
    NoteGroup(name, stridx(words_between_blanks, ' contained ') >= 0)
    return Form([HeadText(sub, name) .. rest], [])
  endif
  var pieces = cut.KnownPieces(text)
  var [head, options, words, others, causes] = ['', [], [], [], []]
  for piece in pieces[: -2]
    const word = strpart(text, piece.from, piece.to - piece.from)
    if piece.kind ==# 'head'
      head = FlatHead(word)
    elseif piece.kind ==# 'list'
      add(options, item.Part('list', FlatList(word), ''))
    elseif cut.IsFlag(word) && !has_key(option_words, tolower(word)) || word =~? '^cchar='
      add(options, item.Part('word', word, ''))
    else
      AddWord(words, others, stridx(word, '\') < 0 ? word : substitute(word, '\\\(.\)', '\1', 'g'))
    endif
  endfor
  NoteGroup(cut.Head(head)[1], index(WordsOf(text, pieces), 'contained') >= 0)
  final texts = mapnew(item.FirstLists(options, causes), (_, part) => part.text)
  causes += WordMatches(matchstr(head, '^syn keyword\s\+\zs\S\+'), texts, others)
  return Form(words == [] ? [] : [head .. join(words + texts, ' ')], causes)
enddef

# Whether keywords have no character that may mean more than itself.
def IsUsualWords(text: string): bool
  for other in ['\', '|', '"', '=', ' [', "\t["]
    if stridx(text, other) >= 0
      return false
    endif
  endfor
  return true
enddef

# Words that Vim takes for keywords, and vimsyn for options.
const option_words = {contains: true, display: true, fold: true, extend: true}

# Whether one of the words, which stand between blanks, may be none of vimsyn's keywords.
def HasOther(words: string): bool
  for option in keys(option_words)
    if stridx(words, ' ' .. option .. ' ') >= 0
      return true
    endif
  endfor
  var blank = 0
  while blank + 81 < len(words)
    const next = strridx(words, ' ', blank + 81)
    if next == blank
      return true
    endif
    blank = next
  endwhile
  return false
enddef

# Adds a word to those that are keywords, or to the others.
def AddWord(words: list<string>, others: list<string>, word: string)
  if strpart(word, 0, 1) ==# '[' && word =~# '^\[.*\]$'
    extend(words, mapnew(range(1, strchars(word) - 2), (_, count) => strcharpart(word, 1, count)))
  else
    const plain = stridx(word, '|') < 0 && stridx(word, '"') != 0 && !has_key(option_words, tolower(word)) && LongestWord(word) <= 80
    add(plain ? words : others, word)
  endif
enddef

# (Which is less than 81 where the whole word is.)
def LongestWord(word: string): number
  return len(word) <= 80 ? len(word) : strchars(substitute(word, '[][]', '', 'g'))
enddef

# Puts words as matches at the end of the flat file, so that they go before other matches as keywords do, and answers
# the causes.
def WordMatches(group: string, options: list<string>, words: list<string>): list<string>
  var causes = []
  for word in words
    if word =~# '^\k\+$' && strchars(word) <= 80
      const case = execute('syntax case') =~# 'ignore' ? '\c' : '\C'
      const inner = '"' .. case .. '\<' .. escape(word, '.*[]^$~\') .. '\>"'
      frame.KeepLate(group, join(['syn match', group, inner] + options, ' '))
      add(causes, 'as a match: ' .. word)
    else
      add(causes, 'no word can be this keyword: ' .. word)
    endif
  endfor
  return causes
enddef

# === Links and styles ===

# Links and styles: 'default' and 'link' in full, colours as numbers.
def FlatHighlight(text: string): dict<list<string>>
  const behind_word = matchend(text, '^\a\+')
  const bang = strpart(text, behind_word, 1) ==# '!' ? '!' : ''
  const rest = strpart(text, behind_word + len(bang))
  var words = split(rest)
  var front = 'hi' .. bang
  if words != [] && IsShort(words[0], 'default', 1)
    front ..= ' def'
    remove(words, 0)
  endif
  if words != [] && IsShort(words[0], 'clear', 2)
    return Form([], ['not in this profile'])
  elseif len(words) < 2
    return Form([], [])
  elseif IsShort(words[0], 'link', 1)
    words[1] = get(reserved, tolower(words[1]), words[1])
    const target = get(words, 2, '')
    const flat = target ==# '' || stridx(target, 'NONE') == 0 ? target : GroupName(target)
    return Form([join([front, 'link', words[1], flat] + words[3 :], ' ')], target ==# flat ? [] : [ReservedCause(flat)])
  endif
  const [parts, causes] = StyleParts(matchstr(rest, '^\s*\%(d\%[efault]\s\+\)\=\S\+\s\+\zs.*'))
  words[0] = get(reserved, tolower(words[0]), words[0])
  return Form(parts == [] ? [] : [join([front, words[0]] + parts, ' ')], causes)
enddef

# Whether a word stands for another one, of which it has so many letters at least.
def IsShort(word: string, whole: string, least: number): bool
  return len(word) >= least && stridx(whole, word) == 0
enddef

def StyleParts(text: string): list<list<string>>
  var [parts, causes, i] = [[], [], 0]
  while i < len(text)
    final m = matchlist(text, '\(\a\+\)\s*=\s*\(''[^'']*''\|\S*\)', i)
    if empty(m)
      break
    endif
    i = matchend(text, '\a\+\s*=\s*\%(''[^'']*''\|\S*\)', i)
    var value = substitute(m[2], "^'\\(.*\\)'$", '\1', '')
    if m[1] =~# '^gui[fb]g$'
      value = get(colours, tolower(value), value)
    endif
    if value =~# '\s' || value ==# ''
      add(causes, 'this value can''t be told: ' .. m[2])
    else
      add(parts, m[1] .. '=' .. value)
    endif
  endwhile
  return [parts, causes]
enddef
