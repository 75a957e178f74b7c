#!/usr/bin/env python3
"""Runs the recipes of a document and compares what they print with what stands there.

    guide.py SSIDX [DOCUMENT]

Run by hand. DOCUMENT is docs/GUIDE.md, or README.md, or another with blocks of code in which a line `$ COMMAND`
is a command, each line `> MORE` behind it one more line of that, and what follows is all that it prints. The
commands are run by one bash, in their order, in a temporary folder that holds the texts made below. Needs bash,
coreutils, findutils, gawk or mawk, diffutils, gzip and git.
"""
import gzip
import os
import pathlib
import subprocess
import sys
import tempfile

TOP = pathlib.Path(__file__).resolve().parent.parent
MAIL = {
    "mail/ada/1": "From: Ada\nSubject: rain\n\nThe rain came early. Bring the tarpaulin to Lindenstraße.\n",
    "mail/ada/2": "From: Ada\nSubject: harvest\n\nHarvest starts Monday, rain or shine. Bring gloves.\n",
    "mail/ben/1": "From: Ben\nSubject: Re: rain\n\nNo rain here. The tarpaulin is at LINDENSTRASSE already.\n",
    "mail/cho/1": "From: Cho\nSubject: Re: harvest\n\nMonday is fine. Who brings the ladder?\n",
}
MANUALS = {
    "manuals/cut.1.gz": ".TH CUT 1\n.SH NAME\ncut - remove sections from each line of files\n",
    "manuals/join.1.gz": ".TH JOIN 1\n.SH NAME\njoin - join lines of two files on a common field\n",
}
MARKER = "== the end of command"


def make_texts(folder):
    """Mail, packed manuals, 65,536 empty messages, and a mailbox and a log of more than 8 MiB each."""
    for name, text in (MAIL | MANUALS).items():
        path = folder / name
        path.parent.mkdir(parents=True, exist_ok=True)
        path.write_bytes(gzip.compress(text.encode()) if name.endswith(".gz") else text.encode())
    archive = folder / "archive/2026"
    archive.mkdir(parents=True)
    for number in range(65_536):
        (archive / f"message-{number:05}@example.org").touch()
    with open(folder / "mailbox", "w") as file:
        for number in range(1, 4):
            file.write(f"From sender{number}@example.org\nSubject: part {number}\n\nThis is part {number}.\n")
            file.write(f"{number * 1111:015} QUJDREVGR0hJSktMTU5PUFFSU1RVVldYWVo\n" * 60_000)
    with open(folder / "log", "w") as file:
        for second in range(180_000):
            time = f"{second // 3600:02} {second // 60 % 60:02} {second % 60:02}"
            what = "refused" if second % 60_000 == 59_999 else "accepted"
            file.write(f"{time} door{second % 7} {what} a connection from the garden\n")


def recipes(document):
    """Each command, with the line at which it stands and what it is said to print."""
    found = []
    for number, line in enumerate(document.read_text().splitlines(), 1):
        if not line.startswith("    "):
            in_recipe = False
            continue
        text = line[4:]
        if text.startswith("$ "):
            found.append((number, [text[2:]], []))
            in_recipe = True
        elif in_recipe and text.startswith("> ") and not found[-1][2]:
            found[-1][1].append(text[2:])
        elif in_recipe:
            found[-1][2].append(text)
    return [(number, "\n".join(command), "".join(f"{it}\n" for it in printed)) for number, command, printed in found]


def run(commands, ssidx, folder):
    """What each command prints, on both streams."""
    program = folder / "ssidx"
    program.write_text(f'#!/bin/sh\nexec "{ssidx}" "$@"\n')
    program.chmod(0o755)
    make_texts(folder)
    script = "".join(f"{{ {command}\n}} 2>&1; printf '%s\\n' '{MARKER}'\n" for command in commands)
    (folder / ".gitconfig").write_text("[user]\nname = me\nemail = me@example.org\n")
    environment = {"PATH": f"{folder}:{os.environ['PATH']}", "HOME": str(folder), "GIT_CONFIG_NOSYSTEM": "1"}
    ended = subprocess.run(
        ["bash", "-c", script], cwd=folder, env=environment, stdin=subprocess.DEVNULL, stdout=subprocess.PIPE
    )
    return ended.stdout.decode().split(f"{MARKER}\n")[:-1]


def main():
    if len(sys.argv) not in (2, 3):
        sys.exit(__doc__)
    ssidx = os.path.abspath(sys.argv[1])
    document = pathlib.Path(sys.argv[2]) if len(sys.argv) == 3 else TOP / "docs/GUIDE.md"
    wanted = recipes(document)
    with tempfile.TemporaryDirectory() as folder:
        printed = run([command for _, command, _ in wanted], ssidx, pathlib.Path(folder))
    wrong = len(wanted) != len(printed)
    for (line, command, want), got in zip(wanted, printed):
        if got != want:
            wrong = True
            print(f"{document.name}, line {line}: {command}\n-- stands there:\n{want}-- is printed:\n{got}")
    print(f"{document.name}: {len(printed)} of {len(wanted)} commands were run")
    sys.exit(1 if wrong else 0)


if __name__ == "__main__":
    main()
