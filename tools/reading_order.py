"""Which files of specs/ the public contracts reach, in an order in which no file comes before one that it uses.

usage: python3 tools/reading_order.py            prints them, a line each: the file, and the names reached in it
       python3 tools/reading_order.py --check    compares them with the list in docs/ARCHITECTURE.md

A contract reaches the names that its `requires` and `ensures` mention, and a name reaches the names that its definition
mentions; so a file may be reached by one of its names and not by the others. A struct or an enum of src/ has no file in
specs/ and ends the way. --check reads the lines between LIST_BEGINS and LIST_ENDS of the document: a link to a crate's
specs/, and after it the files below that folder, in backticks and without `.antt`. The exit status is 1 where a file is
missing there, is not reached, or comes before a file that it uses, and where a public call requires something.
"""

import argparse
import os
import re
import sys

ROOT = os.path.dirname(os.path.dirname(os.path.abspath(__file__)))
DOCUMENT = "docs/ARCHITECTURE.md"
LIST_BEGINS, LIST_ENDS = "<!-- reading order -->", "<!-- end of the reading order -->"

# the public calls: crate, file of src/, functions
CALLS = [
    ("record", "lib", "check_job"),
    ("record", "circuit_rules", "check_circuit"),
    ("verify", "lib", "measure verify"),
    ("verify", "runs", "run_forwards run_backwards"),
    ("parity", "lib", "parity"),
    ("revlib_reader", "lib", "read"),
    ("revlib_writer", "lib", "write_real"),
    ("search", "lib", "search"),
    ("library", "calls", "verify_with"),
    ("library", "lib", "search_with"),
    ("batch", "lib", "search_all"),
    ("sensitivity", "lib", "price_change"),
    ("approximate", "lib", "closest"),
    ("sizes", "lib", "fill"),
    ("peephole", "lib", "rewrite"),
    ("scheduler", "states", "start"),
    ("scheduler", "lib", "post turn collect"),
]
# what `main` and `gazbolk` print: the functions whose contracts equate a text with its definition
PRINTED = [
    ("commands", "program", "line"),
    ("commands", "search_files", "search_text batch_part"),
    ("commands", "compare", "compare_text"),
    ("commands", "closest", "closest_text"),
    ("commands", "rewrite", "rewrite_text"),
    ("printed", "verdict", "verify_text"),
]

USE = re.compile(r"^(?:ghost )?use Rattle\.(\w+)\.specs\.([\w.]+)\.\{([^}]*)\}", re.M)
DEFINITION = re.compile(r"^(?:(?:abbrev|unfoldable) )?(?:pub )?(?:record |data )?([^\s:(]+)")
CONTRACT = re.compile(r"^    (requires|ensures)(?: \w+)? \{(.*?) \}$(?=\n    (?:requires|ensures)\b|\n?\Z)", re.M | re.S)


def read(path):
    with open(os.path.join(ROOT, path), encoding="utf-8") as file:
        return file.read()


def words(text):
    """The names that a text mentions, without those of fields (`x.field`, `{ field = x; ... }`)."""
    text = re.sub(r"(?<=[\w)»])\.[«\w-]+»?", " ", text)
    text = re.sub(r"([{;]\s*)[\w-]+ =", r"\1", text)
    return set(re.split(r"[\s(){};,.]+", text))


def uses(text):
    """The names that a file takes from specs/ of this repository: name -> (file, name)."""
    found = {}
    for crate, module, names in USE.findall(text):
        if module.split(".")[0] != "declared" and os.path.isdir(os.path.join(ROOT, "crates", crate)):
            path = f"crates/{crate}/specs/{module.replace('.', '/')}.antt"
            for name in names.split(","):
                found[name.strip()] = (path, name.strip())
    return found


class Specs:
    """The definitions of specs/, read as they are asked for."""

    def __init__(self):
        self.files = {}

    def load(self, path):
        """name -> the text of its definition, for one file; a constructor has the text of its type."""
        if path in self.files:
            return self.files[path]
        text = re.sub(r"(^|\s)--.*$", r"\1", read(path), flags=re.M)
        blocks, block = [], []
        for line in text.splitlines():
            if re.match(r"(use|pub mod|infix)", line):
                continue
            head = re.match(r"(abbrev|unfoldable|pub)\b", line)
            if head:
                block = []
                blocks.append((DEFINITION.match(line).group(1), block))
            block.append(line)
        defined = {name: "\n".join(lines) for name, lines in blocks}
        for name, lines in blocks:
            if re.match(r"pub data", lines[0]):
                for line in lines[1:]:
                    constructor = re.match(r"  (\S+) :", line)
                    if constructor:
                        defined[constructor.group(1)] = defined[name]
        self.files[path] = defined
        return defined

    def constructs(self, path, name):
        """Whether a name is a constructor of a type: it has the text of the type."""
        defined = self.load(path)
        return defined[name].startswith("pub data") and not defined[name].startswith(f"pub data {name} ")

    def mentioned(self, path, name):
        """What the definition of a name mentions: pairs of a file and a name. A variable of a pattern is no mention."""
        defined = self.load(path)
        known = uses(read(path))
        known.update({own: (path, own) for own in defined})
        found = set()
        for clause in re.split(rf"^(?={re.escape(name)} )", defined[name], flags=re.M):
            pattern = clause.split(" =")[0] if clause.startswith(f"{name} ") else ""
            variables = {word for word in words(pattern) if word in known and not self.constructs(*known[word])}
            found |= {known[word] for word in spelled(words(clause) - variables, known)}
        return found - {(path, name)}


def spelled(mentioned, known):
    """The known names among the words; an operator `◌means◌` is mentioned as `means`."""
    return [name for name in known if name.strip("◌") in mentioned]


def contracts(text, function):
    """The requires and the ensures of a function: pairs of the keyword and the text."""
    start = re.search(rf"^ *pub fn {function}\b", text, re.M).start()
    end = re.compile(r"\n *\{").search(text, start).start()
    return CONTRACT.findall(re.sub(r"^    (?= )", "", text[start:end], flags=re.M) if text[start] == " " else text[start:end])


def starts(table):
    """The names of specs/ that the contracts of a table of functions mention; and the functions that require something."""
    found, requiring = set(), []
    for crate, file, functions in table:
        text = read(f"crates/{crate}/src/{file}.rt")
        known = uses(text)
        for function in functions.split():
            parts = contracts(text, function)
            if not parts:
                sys.exit(f"{crate}::{function}: no contract found")
            requiring += [f"{crate}::{function}" for keyword, _ in parts if keyword == "requires"]
            for _, part in parts:
                found |= {known[name] for name in spelled(words(part), known)}
    return found, requiring


def reached(specs, begin):
    """All pairs of a file and a name that can be reached."""
    seen, todo = set(), list(begin)
    while todo:
        item = todo.pop()
        if item not in seen:
            seen.add(item)
            todo.extend(specs.mentioned(*item))
    return seen


def ordered(specs, seen):
    """The files, each after those that it uses, otherwise in the order of crates.txt; with the files that each uses."""
    crates = [line.split(":")[0] for line in read("crates.txt").splitlines() if not line.startswith("#")]
    below = {path: set() for path, _ in seen}
    for path, name in seen:
        below[path] |= {other for other, _ in specs.mentioned(path, name)} - {path}
    order = []
    while len(order) < len(below):
        free = [path for path in below if path not in order and below[path] <= set(order)]
        order.append(min(free, key=lambda path: (crates.index(path.split("/")[1]), path)))
    return order, below


def differences(order, below):
    """What is wrong with the list in the document, a line each."""
    document = read(DOCUMENT)
    if LIST_BEGINS not in document or LIST_ENDS not in document:
        return [f"{DOCUMENT} has no line {LIST_BEGINS} or {LIST_ENDS}"]
    part = document[document.index(LIST_BEGINS):document.index(LIST_ENDS)]
    listed, folder = [], ""
    for link, name in re.findall(r"\]\(\.\./(crates/\w+/specs)\)|`((?:\w+/)*[A-Z]\w*)`", part):
        folder = link or folder
        if name:
            listed.append(f"{folder}/{name}.antt")
    wrong = [f"missing: {path}" for path in order if path not in listed]
    wrong += [f"not reached: {path}" for path in listed if path not in below]
    wrong += [f"twice: {path}" for path in sorted(set(listed)) if listed.count(path) > 1]
    for at, path in enumerate(listed):
        wrong += [f"{path} comes before {other}" for other in sorted(below.get(path, ())) if other in listed[at:]]
    return wrong


def main():
    parser = argparse.ArgumentParser(description="the files of specs/ that the public contracts reach, in reading order")
    parser.add_argument("--check", action="store_true", help=f"compare with {DOCUMENT}")
    check = parser.parse_args().check
    specs = Specs()
    calls, requiring = starts(CALLS)
    texts, _ = starts(PRINTED)
    seen = reached(specs, calls | texts)
    order, below = ordered(specs, seen)
    if not check:
        for path in order:
            print(path, " ".join(sorted(name for other, name in seen if other == path)))
        return
    wrong = [f"requires something: {call}" for call in requiring] + differences(order, below)
    for line in wrong:
        print(line)
    if wrong:
        sys.exit(1)
    print(f"{len(order)} files, as in {DOCUMENT}")


if __name__ == "__main__":
    main()
