#!/usr/bin/env python3
"""Tests the documents against the tree and the built programs. Run it in the repository's root, after `rt run` in the folders of main,
gazbolk, slots and tally, which leaves each program in its crate's out/:

    python3 tools/doctest.py

- Every `$` line of README.md, docs/REFERENCE.md, docs/API.md and examples/README.md is run, and what it prints is compared with the lines
  below it. Lines that call `rt` or the gate are left out. The commands of examples/README.md are run in examples/.
- Every link leads to a file or a folder. Where the text of a link is one name, the file that it leads to has that name.
- Every `crate::item` in backticks names an item of that crate.
- No row of a table has more than 200 characters of text.

Of docs/landings and docs/PORT.md, which tell of earlier trees, only the links are checked.

Prints what differs and exits with status 1, or prints the counts and exits with status 0."""
import os
import pathlib
import re
import subprocess
import sys

HISTORY = ("landings", "PORT.md")
RUN = {"README.md": ".", "docs/REFERENCE.md": ".", "docs/API.md": ".", "examples/README.md": "examples"}
PROGRAMS = ["main", "gazbolk", "slots", "tally"]
KIT = {"io", "check", "std", "core", "libc", "os"}
faults = []


def blocks(text):
    """The `$` lines of a document, each with the lines that have to follow it."""
    lines, i = text.split("\n"), 0
    while i < len(lines):
        m = re.match(r"^(\s*)\$ (.*)$", lines[i])
        if not m:
            i += 1
            continue
        indent, number, want, j = m.group(1), i + 1, [], i + 1
        while j < len(lines) and lines[j].startswith(indent) and not re.match(r"^\s*(\$ |```)", lines[j]) and (indent or lines[j]):
            want.append(lines[j][len(indent):])
            j += 1
        while want and not want[-1].strip():
            want.pop()
        yield number, m.group(2), want
        i = j


def run_commands():
    count = 0
    path = os.pathsep.join([os.path.abspath(f"crates/{name}/out") for name in PROGRAMS] + [os.environ["PATH"]])
    for name, folder in RUN.items():
        if not os.path.exists(name):
            continue
        for number, command, want in blocks(pathlib.Path(name).read_text()):
            if re.match(r"(rt|\.ci/run|git|cd|python3 bench)\b", command):
                continue
            done = subprocess.run(["bash", "-c", command], cwd=folder, capture_output=True, text=True, env={**os.environ, "PATH": path})
            got = done.stdout.rstrip("\n").split("\n") if done.stdout else []
            count += 1
            if got != want:
                faults.append(f"{name}:{number}: $ {command}\n  should print {want}\n  prints       {got}")
    return count


def documents():
    return [pathlib.Path(f) for f in ("README.md", "CONTRIBUTING.md", "CHANGELOG.md") if os.path.exists(f)] + sorted(
        pathlib.Path("docs").rglob("*.md")) + [pathlib.Path("examples/README.md")]


def check_links():
    count = 0
    for file in documents():
        for name, to in re.findall(r"\[([^\]]*)\]\(([^)#\s]+)", file.read_text()):
            if "://" in to:
                continue
            count += 1
            target = file.parent / to
            if not target.exists():
                faults.append(f"{file}: the link [{name}] leads nowhere: {to}")
            elif target.suffix in (".antt", ".rt", ".rs", ".py") and re.fullmatch(r"`?[\w.₀-ₜ′-]+`?", name):
                word = name.strip("`").split(".")[-1]
                if not re.search(rf"(?<![\w-]){re.escape(word)}(?![\w-])", target.read_text()) and word not in str(target):
                    faults.append(f"{file}: no {word} in {to}")
    return count


def check_names():
    crates = {p.name for p in pathlib.Path("crates").iterdir() if p.is_dir()}
    source = {c: "\n".join(p.read_text() for p in sorted(pathlib.Path(f"crates/{c}/src").glob("*.rt"))) for c in crates}
    modules = {p.stem: c for c in crates for p in pathlib.Path(f"crates/{c}/src").glob("*.rt")}
    count = 0
    for file in documents():
        if any(word in str(file) for word in HISTORY):
            continue
        for path in re.findall(r"`([a-z_]+(?:::[A-Za-z_]+)+)", file.read_text()):
            words = path.split("::")
            if words[0] in KIT:
                continue
            count += 1
            crate = words[0] if words[0] in crates else modules.get(words[0])
            item = words[-1]
            if crate is None or not (re.search(rf"\b(fn|struct|enum|mod|const) {item}\b", source[crate]) or re.search(rf"\b{item}\b", source[crate])):
                faults.append(f"{file}: `{path}` names nothing in crates/")
    return count


def check_rows():
    for file in documents():
        if any(word in str(file) for word in HISTORY) or "CATALOGUE" in file.name:
            continue
        for number, line in enumerate(file.read_text().split("\n"), 1):
            text = re.sub(r"\[([^\]]*)\]\([^)]*\)", r"\1", line)
            if line.startswith("|") and len(text) > 200:
                faults.append(f"{file}:{number}: a row of {len(text)} characters")


def main():
    commands, links, names = run_commands(), check_links(), check_names()
    check_rows()
    for fault in faults:
        print(fault)
    print(f"{commands} commands, {links} links, {names} names, {len(faults)} faults")
    sys.exit(1 if faults else 0)


main()
