#!/usr/bin/env python3
"""Tries the commands that README.md, docs/GUIDE.md and examples/README.md show.

A command is a line of a block of `sh` that begins with `bin/devcore`; lines that begin with `python3` prepare files for
those after them. All lines of a document run in turn in one temporary folder, in which `examples` is the repository's. What
the commands of a block say is the block of `text` behind it. What they write, and their exit status, stand in
.ci/written.txt: a line for each command with its status, then one for each file, with its SHA-256 and name; of a session's
manifest that of its sorted lines, since threads publish in any order. These answers
come from .ci/formulas.py, and not from the program.

The pictures of docs/pictures are made once more and compared pixel by pixel. The blocks of `json` of the guide stand in the
script that it explains.

Prints what differs, and ends with 1 where anything does. The built program has to stand at crates/devcore/out/devcore.
"""
import hashlib
import re
import shlex
import subprocess
import sys
import tempfile
import zlib
from pathlib import Path

TOP = Path(__file__).resolve().parent.parent
PROGRAM = TOP / "crates/devcore/out/devcore"
PAGES = ["README.md", "docs/GUIDE.md", "examples/README.md"]

wrong = []


def blocks(text):
    """The fenced blocks of a document: language and lines."""
    return [(m[1], m[2].splitlines()) for m in re.finditer(r"(?ms)^```(\w*)\n(.*?)^```$", text)]


def answers():
    """What each command writes, by the command: its exit status, and each file's SHA-256."""
    known, files = {}, None
    for line in (TOP / ".ci/written.txt").read_text().splitlines():
        if line.startswith("bin/devcore "):
            command, _, status = line.rpartition(" -> ")
            files = {}
            known[command] = (int(status), files)
        elif line and not line.startswith("#"):
            digest, name = line.split()
            files[name] = digest
    return known


def digests(folder, in_turn):
    """Each file's SHA-256. Where threads publish, the lines of the manifest are sorted first: they come in any order."""
    found = {p.name: p.read_bytes() for p in folder.iterdir() if p.is_file()}
    if "manifest.txt" in found and not in_turn:
        found["manifest.txt"] = b"".join(sorted(found["manifest.txt"].splitlines(keepends=True)))
    return {name: hashlib.sha256(text).hexdigest() for name, text in found.items()}


def try_command(line, folder, known):
    """Runs one command in the folder, compares what it writes, and gives what it says."""
    in_turn = not line.startswith("bin/devcore session ")
    before = digests(folder, in_turn)
    run = subprocess.run([PROGRAM, *shlex.split(line)[1:]], cwd=folder, capture_output=True, text=True)
    written = {name: d for name, d in digests(folder, in_turn).items() if before.get(name) != d}
    if known.get(line) != (run.returncode, written):
        wrong.append(f"{line}: status {run.returncode} and {written} for {known.get(line)}")
    for name in written:
        (folder / name).unlink()
    return run.stdout.splitlines()


def try_page(page, known):
    """Runs the commands of a document, block by block."""
    count = 0
    shown = blocks((TOP / page).read_text())
    with tempfile.TemporaryDirectory() as room:
        folder = Path(room)
        (folder / "examples").symlink_to(TOP / "examples")
        for i, (language, lines) in enumerate(shown):
            lines = [l for l in lines if language == "sh" and re.match(r"bin/devcore |python3 examples/", l)]
            said = []
            for line in lines:
                if line.startswith("python3 "):
                    subprocess.run(shlex.split(line), cwd=folder, check=True)
                else:
                    said += try_command(line, folder, known)
                    count += 1
            behind = shown[i + 1] if i + 1 < len(shown) else ("", [])
            if said and behind != ("text", said):
                wrong.append(f"{page}: {lines[-1]} says {said}, and the document {behind}")
    return count


def pixels(path):
    """The packed rows of a PNG of docs/pictures/png.py, unpacked."""
    data = path.read_bytes()
    at = data.index(b"IDAT")
    size = int.from_bytes(data[at - 4 : at], "big")
    return data[16:24], zlib.decompress(data[at + 4 : at + 4 + size])


def check_pictures():
    with tempfile.TemporaryDirectory() as room:
        subprocess.run([TOP / "docs/pictures/make.sh", room], check=True)
        made = {p.name: pixels(p) for p in Path(room).glob("*.png")}
    kept = {p.name: pixels(p) for p in (TOP / "docs/pictures").glob("*.png")}
    for name in sorted(made.keys() | kept.keys()):
        if made.get(name) != kept.get(name):
            wrong.append(f"docs/pictures/{name} isn't what make.sh makes")
    return len(kept)


def check_quotes():
    script = "".join((TOP / "examples/landscape/script.json").read_text().split())
    quotes = [lines for language, lines in blocks((TOP / "docs/GUIDE.md").read_text()) if language == "json"]
    for lines in quotes:
        if "".join("".join(lines).split()) not in script:
            wrong.append(f"docs/GUIDE.md: {lines[0]} .. isn't in the landscape's script")
    return len(quotes)


def main():
    known = answers()
    count = sum(try_page(page, known) for page in PAGES)
    pictures = check_pictures()
    quotes = check_quotes()
    for text in wrong:
        print(text)
    print(f"commands: {count} commands, {pictures} pictures, {quotes} quotes, {len(wrong)} differences")
    sys.exit(1 if wrong else 0)


if __name__ == "__main__":
    main()
