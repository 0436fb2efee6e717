#!/usr/bin/env python3
"""on_terminal.py KEYS WORD..: runs a command in a terminal of 24 lines and 80 columns, and prints what it wrote there.

Each of the keys is typed when the command has written something and then nothing for half a second. The status is the
command's; one that goes on for two minutes loses its terminal. For trying alone.
"""
from __future__ import annotations

import fcntl
import os
import pty
import select
import struct
import sys
import termios
import time

QUIET = 0.5
MOST_SECONDS = 120


def read_some(terminal: int) -> bytes | None:
    """What was written; None at the end."""
    try:
        return os.read(terminal, 65536) or None
    except OSError:
        return None


def follow(terminal: int, keys: list[str]) -> bytes:
    """Reads to the end, and types where nothing more comes."""
    written, end = b"", time.monotonic() + MOST_SECONDS
    while time.monotonic() < end:
        if select.select([terminal], [], [], QUIET)[0]:
            part = read_some(terminal)
            if part is None:
                return written
            written += part
        elif keys and written:
            os.write(terminal, keys.pop(0).encode())
    return written


def main() -> int:
    keys, words = list(sys.argv[1]), sys.argv[2:]
    child, terminal = pty.fork()
    if child == 0:
        fcntl.ioctl(0, termios.TIOCSWINSZ, struct.pack("HHHH", 24, 80, 0, 0))
        os.execvp(words[0], words)
    written = follow(terminal, keys)
    os.close(terminal)
    sys.stdout.buffer.write(written.replace(b"\r\n", b"\n"))
    sys.stdout.flush()
    return os.waitstatus_to_exitcode(os.waitpid(child, 0)[1])


if __name__ == "__main__":
    sys.exit(main())
