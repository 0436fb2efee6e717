#!/bin/sh
# Tries the filter for pandoc.
set -eu
. "$(dirname "$0")/../trying.sh"
need python3 vim vimsyn pandoc
VIMSYN_PAINT=$here/../paint/vimsyn-paint
export VIMSYN_PAINT
cd "$room"
filtered() {
  pandoc --lua-filter="$here/vimsyn.lua" "$@" 2> said
}
cat > notes.md <<'END'
---
title: Notes
header-includes: <meta name="mine">
---

``` {#one .tiny key="a<b"}
if <x>

```

```nonsense
if
```

    if
END
made=$(filtered --standalone notes.md)
has "a block" '<pre id="one" class="vimsyn tiny" data-key="a&lt;b"><code>' "$made"
has "its colours" '<code><span class="Statement">if</span> &lt;x&gt;' "$made"
has "its style" 'pre.vimsyn .Statement { color: #a52a2a; font-weight: bold; }' "$made"
has "the document's own header" '<meta name="mine">' "$made"
has "an unknown language" '<pre class="nonsense"><code>if</code></pre>' "$made"
has "is told" "a block of 'nonsense' isn't coloured" "$(cat said)"
has "a block without a language" '<pre><code>if</code></pre>' "$made"
has "C" '<span class="Type">int</span> x;' "$(printf '~~~ c\nint x;\n~~~\n' | filtered)"
same "other formats keep their blocks" "$(pandoc -t latex notes.md)" "$(filtered -t latex notes.md)"
printf '~~~ tiny\nif\n~~~\n' > tiny.md
has "no vimsyn-paint" '<pre class="tiny"><code>if</code></pre>' "$(VIMSYN_PAINT=none filtered tiny.md)"
has "is told too" "none couldn't be run" "$(cat said)"
filtered --standalone -t epub3 notes.md -o notes.epub
python3 -m zipfile -e notes.epub book
has "a book" '<span class="Statement" style="color: #a52a2a; font-weight: bold;">if</span>' "$(cat book/EPUB/text/*)"
ended
