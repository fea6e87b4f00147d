#!/usr/bin/env python3
"""Plants bugs in the proved code, one at a time, and says which of them are still proved.

    tools/planted.py [CRATE..]          the bugs of tools/planted/CRATE.txt, or of all crates
    tools/planted.py --edits [CRATE..]  the edits of crates/CRATE/must-fail instead
    tools/planted.py --texts ..         only says which of these can't be planted: no check is run

It works in a copy of the repository, with what was proved here already, by `rt check`, which takes over what an edit does
not touch: a first look at an edit is much cheaper than in the gate. A bug is a block of lines
`name`, `file: PATH`, `old: TEXT`, `new: TEXT`, and blocks are apart by an empty line; OLD stands once in the file.
Further pairs of `old:` and `new:` apply to what the earlier ones made; a `file:` holds for the pairs behind it."""
import re
import shutil
import subprocess
import sys
import tempfile
import time
from pathlib import Path

HOME = Path(__file__).resolve().parent.parent
PROVED = "SURVIVED"


class Bad(Exception):
    """A bug that can't be planted."""


def blocks(crate, edits):
    if edits:
        for path in sorted((HOME / "crates" / crate / "must-fail").glob("*.edit")):
            yield path.stem, path.read_text().rstrip("\n").split("\n")
    else:
        text = (HOME / "tools" / "planted" / f"{crate}.txt").read_text().strip("\n")
        for block in text.split("\n\n"):
            name, *lines = (line for line in block.split("\n") if not line.startswith("#"))
            yield name, lines


def pairs(lines):
    """The pairs of a bug, in order, each with its file."""
    file = old = None
    for line in lines:
        key, _, text = line.partition(":")
        text = text.removeprefix(" ")
        if key == "file" and old is None:
            file = text
        elif key == "old" and file and old is None:
            old = text
        elif key == "new" and old is not None:
            yield file, old, text
            old = None
        else:
            raise Bad(f"out of place: {line}")
    if old is not None:
        raise Bad(f"no new text for: {old}")


def planted(folder, lines):
    """The files of a crate that a bug alters, by their paths, and what it makes of each."""
    texts = {}
    for file, old, new in pairs(lines):
        path = folder / file
        if path not in texts and not path.is_file():
            raise Bad(f"there is no {file}")
        text = texts[path] if path in texts else path.read_text()
        if text.count(old) != 1:
            raise Bad(f"the old text stands {text.count(old)} times in {file}: {old}")
        texts[path] = text.replace(old, new)
    if all(path.read_text() == text for path, text in texts.items()):
        raise Bad("it alters nothing")
    return texts


def check(folder):
    """What the check says, and the place of the first refusal, or the function where no place is told."""
    run = subprocess.run(["rt", "check"], cwd=folder, capture_output=True, text=True)
    said = run.stdout + run.stderr
    if run.returncode == 0:
        return PROVED
    if run.returncode != 1:
        return f"NOT JUDGED (status {run.returncode})"
    places = re.findall(r"((?:src|proofs|specs)/[^:\s]*:\d+)(?::\d+)?: (?:error|it is not proved)", said)
    places += re.findall(r"^fn (\S+): no proof", said, re.MULTILINE)
    return f"refused (first at {places[0] if places else 'no place told'})"


def plant(folder, lines):
    """Plants a bug, and says what the check says of it."""
    texts = planted(folder, lines)
    before = {path: path.read_text() for path in texts}
    for path, text in texts.items():
        path.write_text(text)
    start = time.time()
    verdict = check(folder)
    for path, text in before.items():
        path.write_text(text)
    return f"{verdict}, {time.time() - start:.0f} s"


def look_at_texts(crates, edits):
    """Says which bugs can't be planted, and how many of each crate can."""
    missing = 0
    for crate in crates:
        count = bad = 0
        for name, lines in blocks(crate, edits):
            count += 1
            try:
                planted(HOME / "crates" / crate, lines)
            except Bad as why:
                bad += 1
                print(f"{crate}/{name}: BAD: {why}")
        print(f"{crate}: {count - bad} of {count} can be planted")
        missing += bad
    return 1 if missing else 0


def try_all(crates, edits):
    """Plants each bug in a copy of the repository, and says which are refused."""
    count = survived = 0
    with tempfile.TemporaryDirectory() as place:
        copy = Path(place) / "copy"
        shutil.copytree(HOME, copy, ignore=shutil.ignore_patterns(".git"))
        for crate in crates:
            folder = copy / "crates" / crate
            if check(folder) != PROVED:
                print(f"{crate}: not proved as it stands", flush=True)
                survived += 1
                continue
            for name, lines in blocks(crate, edits):
                try:
                    said = plant(folder, lines)
                except Bad as why:
                    said = f"BAD: {why}"
                print(f"{crate}/{name}: {said}", flush=True)
                count += 1
                survived += not said.startswith("refused (")
    print(f"planted {count}, still proved, not judged or not planted {survived}")
    return 1 if survived else 0


def main():
    flags = {"--edits", "--texts"}
    crates = [word for word in sys.argv[1:] if word not in flags]
    edits = "--edits" in sys.argv
    if not crates and edits:
        crates = sorted(path.parent.name for path in (HOME / "crates").glob("*/must-fail"))
    elif not crates:
        crates = sorted(path.stem for path in (HOME / "tools" / "planted").glob("*.txt"))
    return (look_at_texts if "--texts" in sys.argv else try_all)(crates, edits)


if __name__ == "__main__":
    sys.exit(main())
