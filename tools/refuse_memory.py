#!/usr/bin/env python3
"""usage: refuse_memory.py PROGRAM WORD.. < script

Runs the program once for each of its calls for memory, with that call refused, and tells how the runs
ended: with status 5, or as without, and how often a part of the output was written. Each run has to write a
part of the output from its front. It needs a C compiler, and Linux."""
import collections
import os
import subprocess
import sys
import tempfile

SHIM = r"""
#include <errno.h>
#include <stdio.h>
#include <stdlib.h>
extern void *__libc_malloc(size_t), *__libc_calloc(size_t, size_t), *__libc_realloc(void *, size_t), *__libc_memalign(size_t, size_t);
static long count, refused;
static int is_refused(void) {
    if (!count++) { char *n = getenv("REFUSED_CALL"); refused = n ? atol(n) : 0; }
    if (count == refused) errno = ENOMEM;
    return count == refused;
}
void *malloc(size_t n) { return is_refused() ? 0 : __libc_malloc(n); }
void *calloc(size_t k, size_t n) { return is_refused() ? 0 : __libc_calloc(k, n); }
void *realloc(void *p, size_t n) { return is_refused() ? 0 : __libc_realloc(p, n); }
void *aligned_alloc(size_t a, size_t n) { return is_refused() ? 0 : __libc_memalign(a, n); }
int posix_memalign(void **p, size_t a, size_t n) {
    if (is_refused()) return ENOMEM;
    *p = __libc_memalign(a, n);
    return *p ? 0 : ENOMEM;
}
__attribute__((destructor)) static void tell(void) {
    FILE *f = fopen(getenv("CALLS_TO"), "w");
    if (f) { fprintf(f, "%ld", count); fclose(f); }
}
"""


def main(words):
    script = b"" if sys.stdin.isatty() else sys.stdin.buffer.read()
    with tempfile.TemporaryDirectory() as room:
        with open(f"{room}/shim.c", "w", encoding="utf-8") as it:
            it.write(SHIM)
        subprocess.run(["cc", "-shared", "-fPIC", "-O1", "-o", f"{room}/shim.so", f"{room}/shim.c"], check=True)
        given = dict(os.environ, LD_PRELOAD=f"{room}/shim.so", CALLS_TO=f"{room}/calls")

        def run(call):
            return subprocess.run(words, env=dict(given, REFUSED_CALL=str(call)), input=script, capture_output=True, timeout=60)

        whole = run(0)
        with open(f"{room}/calls", encoding="utf-8") as it:
            calls = int(it.read())
        ends, parts = collections.Counter(), 0
        for call in range(1, calls + 1):
            it = run(call)
            if it.returncode not in (5, whole.returncode) or not whole.stdout.startswith(it.stdout):
                sys.exit(f"call {call}: status {it.returncode}, {len(it.stdout)} bytes")
            ends[it.returncode] += 1
            parts += 0 < len(it.stdout) < len(whole.stdout)
        print(f"{calls} calls: {ends[5]} ended with 5, {calls - ends[5]} with {whole.returncode}; {parts} wrote a part")


if __name__ == "__main__":
    main(sys.argv[1:])
