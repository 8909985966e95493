#!/usr/bin/env python3
"""Spells the repository's own definitions and lemmas in snake case, as today's Rattle spells its words.

usage: python3 tools/respell.py [--dry]      at the top of the repository, once, after /opt/rattle/port/port.py

A name is respelled if a file of specs/ or a file of laws in proofs/ declares it: `answerOf` becomes `answer_of`, `found-is` becomes
`found_is`. Types, modules and constructors that begin with a capital keep their spelling, and so does everything in src/ that is not a
clause: functions, exported names, strings. Names of the library are left alone. A helper that only one proof file declares is respelled
in that file. In comments a name in camel case turns, and one with a hyphen only inside a code span, since it may be an English word.
A lemma whose name would fall together with the definition that it is about gets `_law` after its name. Where two names would still meet in a
file, the script lists them and writes nothing.
"""

import collections
import os
import re
import sys

WORD = re.compile(r'[^\s(){}.;,@"«»`]+')
# A line that declares a name: its type follows a colon.
DECLARED = re.compile(r"(?m)^ *(?:(?:pub|abbrev|unfoldable|opaque|private|data|record|module) )*([^\s:(){}]+)((?: [^\s:(){}]+)*)(?: \{[^{}\n]*\})* :(?= |$)")
USE = re.compile(r"(?m)^(?:ghost )?use ([^\s;{]+)\{([^}]*)\}")
QUIET = re.compile(r'"(?:[^"\\\n]|\\.)*"')
# Names that Rattle makes, or that answer to a type that it makes.
MADE = re.compile(r"^(invariant-|decreases-|.*-spec$|.*-Inv-|.*-μ-)")
TIED = re.compile(r"\b(tie|ties|[\w-]*-?lts|kinds|[\w-]*-kinds)\.|\bNeed-")

# Lemmas that are called like a word of the library, or like a definition that port.py had respelled already.
LAWS = {"bit-and", "bit-or", "bit-xor", "all-below", "value-at", "all-fit"}
# Lemmas that port.py had respelled before the definition that they are about.
FIRST = {
    "crates/circuit/proofs/Gatebound.antt": {"frees_all": "frees_all_law"},
    "crates/parity/proofs/odd_tables/Tables.antt": {"from_bits": "from_bits_law"},
    "crates/reach_filter/proofs/fill/Sieves.antt": {"aim_at": "aim_at_law"},
    "crates/batch/proofs/cells/Statuses.antt": {"size_ok": "size_ok_law"},
    "crates/record/proofs/Kept.antt": {"rows_ok": "rows_kept"},
    "crates/inverse/proofs/Tables.antt": {"rows_ok": "rows_kept"},
    "crates/parity/proofs/odd_tables/Permutation.antt": {"rows_ok": "rows_kept"},
}
# Files where one spelling is a definition and a field, which no reader can take for one another.
BOTH = {"crates/search/specs/Inner.antt"}


def snake(name):
    words = re.sub(r"(?<=[a-z0-9ᴰ])([A-Z])(?=[a-z0-9_'-]|$|[A-Z])", lambda m: "_" + m[1].lower(), name)
    return words.replace("-", "_")


def turns(name):
    return bool(re.match(r"[a-z]", name)) and re.search(r"[a-z0-9][A-Z]|[a-zA-Z0-9']-[a-zA-Z0-9]", name) is not None


def texts(kinds):
    for folder, dirs, files in os.walk("crates"):
        dirs[:] = sorted(d for d in dirs if d != "out")
        for f in sorted(files):
            if f.endswith(kinds):
                yield os.path.join(folder, f)


def read(path):
    with open(path, encoding="utf-8") as f:
        return f.read()


def without_comments(text, mark):
    return "\n".join(line if line.lstrip().startswith(mark) is False else "" for line in text.split("\n"))


def declared(text):
    names = set()
    for m in DECLARED.finditer(text):
        names.add(m[1])
        names.update(m[2].split())
    return names


def collect():
    """The names of the repository, and for each proof file the helpers that it alone declares."""
    own, local, library = set(), collections.defaultdict(set), set()
    for path in texts((".antt", ".rt")):
        text = read(path)
        for m in USE.finditer(text):
            ours = re.match(r"Rattle\.(\w+)\.(specs|proofs)", m[1]) and not re.match(r"Rattle\.(std|core|io|os|libc|bytes|check)\b", m[1])
            if not ours:
                library.update(n.split(" as ")[0].strip() for n in m[2].split(","))
        if not path.endswith(".antt"):
            continue
        code = without_comments(text, "--")
        if os.path.basename(path) == "Proof.antt":
            for m in DECLARED.finditer(code):
                line = code[m.start() : code.find("\n", m.end())]
                if not MADE.match(m[1]) and not TIED.search(line):
                    local[path].add(m[1])
        else:
            own |= declared(code)
    own = {n for n in own if turns(n) and n not in library and not MADE.match(n)}
    for path in local:
        local[path] = {n for n in local[path] if turns(n) and n not in library}
    return own, local, library


def respelled(text, table, mark):
    """The text with each word of the table respelled, strings apart; of a comment only what surely is a name."""

    def word(m):
        return table.get(m[0], m[0])

    def code(part):
        out, at = [], 0
        for m in QUIET.finditer(part):
            out += [WORD.sub(word, part[at : m.start()]), m[0]]
            at = m.end()
        return "".join(out) + WORD.sub(word, part[at:])

    def comment(part):
        camel = WORD.sub(lambda m: table.get(m[0], m[0]) if "-" not in m[0] else m[0], part)
        return re.sub(r"`[^`\n]*`", lambda m: WORD.sub(word, m[0]), camel)

    lines = []
    for line in text.split("\n"):
        m = re.search(rf"(^|\s){mark}", line)
        if m and line[: m.start()].count('"') % 2 == 0:
            at = m.end() - len(mark)
            lines.append(code(line[:at]) + comment(line[at:]))
        else:
            lines.append(code(line))
    return "\n".join(lines)


def main():
    own, local, library = collect()
    table = {n: snake(n) + ("_law" if n in LAWS else "") for n in own}
    for name in own:
        if "-" in name and any(other != name and snake(other) == snake(name) for other in own):
            table[name] = snake(name) + "_law"
    by_new = collections.defaultdict(set)
    for old, new in table.items():
        by_new[new].add(old)
    bad = [f"fall together: {sorted(olds)} -> {new}" for new, olds in sorted(by_new.items()) if len(olds) > 1]
    writes = {}
    for path in texts((".antt", ".rt")):
        text = read(path)
        names = dict(table)
        names.update({n: snake(n) for n in local.get(path, ()) if n not in names})
        names.update(FIRST.get(path, {}))
        # words of their own: steps of a path and fields behind a dot apart
        code = re.sub(r"(?m)^(?:ghost )?use [^\s{]*", "", without_comments(text, "--" if path.endswith(".antt") else "//"))
        words = set(re.findall(r'(?<![^\s(){},;@"«»`])[^\s(){}.;,@"«»`]+', code))
        for old in sorted(words & set(names)):
            if names[old] in words - set(FIRST.get(path, ())) and path.endswith(".antt") and path not in BOTH:
                bad.append(f"{path}: has both {old} and {names[old]}")
        new = respelled(text, names, "--" if path.endswith(".antt") else "//")
        if new != text:
            writes[path] = new
    print(f"{len(table)} names, {sum(len(v) for v in local.values())} helpers, {len(writes)} files")
    if bad:
        print("\n".join(bad))
        print(f"{len(bad)} places")
        return 1
    if "--dry" not in sys.argv:
        for path, text in writes.items():
            with open(path, "w", encoding="utf-8") as f:
                f.write(text)
    return 0


if __name__ == "__main__":
    sys.exit(main())
