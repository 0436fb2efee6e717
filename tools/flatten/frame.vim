vim9script

# The flat files that are being written, and the notes of what is left out of them.

export var frames: list<dict<any>> = []    # the innermost include stands last
export var done: list<dict<any>> = []      # those that are whole
var notes: list<list<any>> = []            # what is left out: [file, line, cause, text]
var opened = 0

# A flat file: 'tops' and 'contained' are the groups of its items without and with 'contained', 'late' the commands
# that stand at its end, behind their group. 'asked' is the command that reads it, with file and line, and 'cluster' that
# which it names; 'has_all' says whether a list begins with ALL or ALLBUT.
export def Open(name: string, asked: list<any>, cluster: string)
  add(frames, {name: name, number: opened, asked: asked, cluster: cluster, has_all: false, entries: [], late: [], read: 0,
    tops: {}, contained: {}})
  opened += 1
enddef

# The innermost flat file is whole. One without entries is left out, but for the last one.
export def Close(): dict<any>
  for [group, text] in frames[-1].late
    Keep(-1, 0, text)
  endfor
  final frame = remove(frames, -1)
  if frame.entries != [] || frames == []
    add(done, frame)
  endif
  return frame
enddef

# Notes that a file was read for the innermost flat file.
export def NoteRead()
  frames[-1].read += 1
enddef

export def Keep(file: number, lnum: number, text: string)
  add(frames[-1].entries, [file, lnum, text])
enddef

# A command of an item of a group, at the end of the flat file.
export def KeepLate(group: string, text: string)
  add(frames[-1].late, [tolower(group), text])
enddef

# The items of these groups are cleared, or all.
export def ForgetLate(groups: list<string>)
  for frame in frames
    frame.late = groups == [] ? [] : filter(frame.late, (_, late) => index(groups, late[0]) < 0)
  endfor
enddef

export def LeaveOut(file: number, lnum: number, cause: string, text: string)
  add(notes, [file, lnum, cause, substitute(text, "\n", ' ', 'g')])
enddef

# The notes as lines, of which each names the file and the line.
export def NoteLines(files: list<string>, name: string): list<string>
  var lines = []
  for [file, lnum, cause, text] in notes
    add(lines, Utf8((file < 0 ? name : fnamemodify(files[file], ':t')) .. ':' .. lnum .. ': ' .. cause .. ': ' .. text))
  endfor
  return lines
enddef

# The lines of a flat file.
export def FlatLines(frame: dict<any>, files: list<string>): list<string>
  var lines = ['" ' .. frame.name .. ': made by flatten.vim of the commands that Vim carries out for it.']
  var from = -1
  for [file, lnum, text] in frame.entries
    if file >= 0 && file != from
      from = file
      add(lines, '" From ' .. files[file])
    endif
    add(lines, Utf8(text))
  endfor
  return lines
enddef

# A text whose bytes aren't UTF-8 is read as Latin-1. (Such a byte is wider than a character.)
def Utf8(text: string): string
  return strchars(text) == len(text) && strwidth(text) == len(text) ? text : list2str(str2list(text))
enddef
