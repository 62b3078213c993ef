#!/usr/bin/env python3
"""Runs a command whose every read of standard input gets so many bytes at most.

    python3 tests/in_pieces.py SIZE FILE WORDS..

Each piece is a packet of its own, so that no read gets two, however fast the pieces come.
"""
import socket
import subprocess
import sys


def main():
    size, path, *words = sys.argv[1:]
    given = open(path, "rb").read()
    ours, theirs = socket.socketpair(socket.AF_UNIX, socket.SOCK_SEQPACKET)
    running = subprocess.Popen(words, stdin=theirs)
    theirs.close()
    try:
        for at in range(0, len(given), int(size)):
            ours.send(given[at:at + int(size)])
    except BrokenPipeError:
        pass  # it has read enough
    ours.close()
    sys.exit(running.wait())


if __name__ == "__main__":
    main()
