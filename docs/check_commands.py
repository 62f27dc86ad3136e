#!/usr/bin/env python3
"""Runs the commands that README.md and GUIDE.md show: check_commands.py [PATH OF xmpc], which is ../crates/xmpc/out/xmpc where no path is given.

In a block marked `console` a line `$ xmpc ..` is run from the top of the repository, and the lines behind it, up to the next such line,
are what it has to write, on both streams; a file that such a line names and that isn't there is the last block of C above, as shown.
Other commands of these pages (setting up, the gate) are run by hand; their pages say when and where.
"""
import os
import re
import shlex
import subprocess
import sys
import tempfile

TOP = os.path.normpath(os.path.join(os.path.dirname(os.path.abspath(__file__)), ".."))
PAGES = ("README.md", "docs/GUIDE.md")


def commands(page):
    """The commands of a page: the number of the line, the words, what has to be written, the last block of C above."""
    kind, program, found, lines = None, "", [], []
    for number, line in enumerate(page.splitlines(keepends=True), 1):
        if line.startswith("```"):
            if kind == "c":
                program = "".join(lines)
            kind, lines = (line[3:].strip() or "text") if kind is None else None, []
        elif kind == "console" and line.startswith("$ xmpc "):
            found.append([number, shlex.split(line[7:]), "", program])
        elif kind == "console" and found and not line.startswith("$ "):
            found[-1][2] += line
        else:
            lines.append(line)
    return found


def main():
    xmpc = os.path.abspath(sys.argv[1]) if len(sys.argv) > 1 else f"{TOP}/crates/xmpc/out/xmpc"
    if not os.access(xmpc, os.X_OK):
        sys.exit(f"check_commands: there is no program {xmpc}")
    many, wrong = 0, 0
    for name in PAGES:
        with open(os.path.join(TOP, name), encoding="utf-8") as it:
            page = it.read()
        for number, words, wanted, program in commands(page):
            with tempfile.TemporaryDirectory() as folder:
                for k, word in enumerate(words):
                    if re.search(r"\.c$", word) and not os.path.exists(os.path.join(TOP, word)):
                        words[k] = os.path.join(folder, word)
                        with open(words[k], "w", encoding="utf-8") as it:
                            it.write(program)
                ran = subprocess.run([xmpc, *words], cwd=TOP, stdin=subprocess.DEVNULL, stdout=subprocess.PIPE, stderr=subprocess.STDOUT, timeout=60)
            many += 1
            if ran.stdout.decode() != wanted:
                wrong += 1
                print(f"{name}:{number}: wanted {wanted!r}, and got {ran.stdout.decode()!r}")
    print(f"commands: {many} run, {wrong} wrong")
    if wrong or not many:
        sys.exit(1)


main()
