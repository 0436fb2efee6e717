vim9script

# The groups that Vim shows of the text $TEXT in the syntax $SYNTAX, a name or a path, written to $GROUPS: a line for each
# line of the text, of the final group of each character, with tabs between them. As Vim paints, each byte is asked in order.

set nocompatible encoding=utf-8 viminfo= nomodeline noswapfile nofoldenable lazyredraw
set synmaxcol=0 redrawtime=600000 maxmempattern=2000000 background=light t_Co=256
syntax on
exe 'noautocmd edit ++ff=unix ++enc=utf-8' fnameescape($TEXT)

def Groups(lnum: number): string
  final line = getline(lnum)
  if line ==# ''
    synID(lnum, 1, 1)
    return ''
  endif
  var [names, column] = [[], 1]
  for character in split(line, '\zs')
    const shown = synID(lnum, column, 1)
    for byte in range(1, len(character) - 1)
      synID(lnum, column + byte, 1)
    endfor
    names += repeat([synIDattr(synIDtrans(shown), 'name')], strchars(character))
    column += len(character)
  endfor
  return join(names, "\t")
enddef

if $SYNTAX =~# '/\|\.vim$'
  exe 'source' fnameescape($SYNTAX)
else
  exe 'noautocmd setlocal filetype=' .. $SYNTAX
  exe 'set syntax=' .. $SYNTAX
endif
syntax sync fromstart
redraw
writefile(mapnew(range(1, line('$')), (_, lnum) => Groups(lnum)), $GROUPS)
qall!
