#!/usr/bin/python3
"""Answers records on a dask cluster.
usage: spread.py SCHEDULER FILE.. -- COMMAND WORD..
The files are cut into blocks of whole lines. A worker, which needs the same folder, pipes a block through the command;
when it dies, another takes the block. The answers are printed in order. Standard error has the sums of what the
commands count there, and the exit status is the greatest of theirs."""
import os
import subprocess
import sys
from collections import deque
from pathlib import Path

from distributed import Client
from summaries import Sums

# So much that to start the command for each takes little beside it.
BLOCK = 1 << 23
# Blocks that are under way or whose answers wait for those before them, for each worker.
AHEAD = 4


def blocks_of(path):
    """Where the blocks of a file begin and end: at line ends."""
    size = path.stat().st_size
    with open(path, "rb") as file:
        start = 0
        while start < size:
            file.seek(min(start + BLOCK, size))
            file.readline()
            yield path, start, file.tell()
            start = file.tell()


def answer(command, folder, path, start, end):
    """What the command says of a block: its status, and what it writes to standard output and standard error."""
    with open(path, "rb") as file:
        file.seek(start)
        ended = subprocess.run(command, cwd=folder, input=file.read(end - start), capture_output=True)
    return ended.returncode, ended.stdout, ended.stderr.decode(errors="replace")


def answers(client, command, blocks):
    """The answers to the blocks, in their order."""
    waiting = deque()
    for block in blocks:
        waiting.append(client.submit(answer, command, os.getcwd(), *block, pure=False, retries=3))
        if len(waiting) > AHEAD * max(1, len(client.ncores())):
            yield waiting.popleft().result()
    while waiting:
        yield waiting.popleft().result()


def main():
    scheduler, *words = sys.argv[1:]
    at = words.index("--")
    files, command = [Path(word).resolve() for word in words[:at]], words[at + 1 :]
    blocks = (block for file in files for block in blocks_of(file))
    sums, status = Sums(), 0
    with Client(scheduler) as client:
        for ended, said, complained in answers(client, command, blocks):
            sys.stdout.buffer.write(said)
            if not sums.add(complained):
                sys.stderr.write(complained)
            status = max(status, ended)
    sys.stderr.write(str(sums))
    sys.exit(status)


if __name__ == "__main__":
    main()
