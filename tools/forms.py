#!/usr/bin/env python3
"""Count the places in crates/*/src that docs/DESIGN-PASS.md speaks of, by the points of that page.

    python3 tools/forms.py                counts in the working tree
    python3 tools/forms.py COMMIT         counts at a commit
    python3 tools/forms.py [COMMIT] -l    lists each place too

A count is of lines or functions that look like an old form; the page says of each that is left why it stays.
"""
import pathlib
import re
import subprocess
import sys

ROOT = pathlib.Path(__file__).resolve().parent.parent

# (point, what, pattern): each line of code that matches is a place.
LINES = [
    (1, 'enum with a case Refused(number)', r'^\s+Refused\(u8\),'),
    (1, 'enum with a case that stands for None', r'^\s+(Other|Idle),$'),
    (1, 'flag field beside the value that it speaks of', r'^\s+(pub )?(found|done|sound|going|cheaper): bool,'),
    (1, 'flag parameter beside the value that it speaks of', r'\b(named|among): bool\b'),
    (1, 'number for a state, a code or a kind in a field', r'^\s+(pub )?(code|status|free): (u8|usize),'),
    (3, 'while that counts or waits', r'^\s*while '),
    (4, 'widening by a function of our own', r'\blogic::wide\('),
    (4, 'conversion by `as`', r'\bas (u8|u16|u32|u64|usize|i32)\b'),
    (4, 'order, choice or copy by hand', r'\bfn (less_bytes|ordered|comes_first|lesser|later|copy|copy_in|repeat|picked|one)\('),
    (4, 'and, or, implication by a function of our own', r'\blogic::(both|either|implies)\('),
    (6, 'array field with its length in another field', r'^\s+(pub )?(path|digits|gates|prices|durations|bytes|job|letters): \[u8; \d+\],'),
]

# (point, what, test): each function whose signature and clauses pass the test is a place.
FUNCTIONS = [
    (1, 'function that answers a refusal as a number', lambda f: re.search(r'-> u8\b.*result ≡ [^}]*(_code|_rest|rule|and_then|status_of)', f)),
    (1, 'function that takes a layout\'s freedom as 0 or 1', lambda f: re.search(r'\bfree: usize\b', f)),
    (5, 'function that requires a width of 3 or 4', lambda f: re.search(r'requires[^{]*\{[^}]*\bWidth\b', f)),
    (5, 'function that requires a list of at most 12 gates', lambda f: re.search(r'requires[^{]*\{[^}]*\blen ≤ 12', f)),
    (5, 'function that requires a product table of 40', lambda f: re.search(r'requires[^{]*\{[^}]*table\.now ≡ 40', f)),
    (6, 'function that takes gates, prices and durations apart', lambda f: re.search(r'\bprices: (&\[u8\]|\[u8; 75\])', f) and re.search(r'\bdurations: ', f)),
    (6, 'function that takes an array and its length', lambda f: re.search(r': \[u8; 1[25]\],\s*\w+: usize|len: usize, bytes: \[u8; 15\]', f)),
    (7, 'function with a flag that says which step to run', lambda f: re.search(r'\((forth|care|wide): bool|, (wide|care): bool', f)),
]


def sources(commit):
    """Each file below crates/*/src with its text."""
    if commit is None:
        for path in sorted(ROOT.glob('crates/*/src/**/*.rt')):
            yield str(path.relative_to(ROOT)), path.read_text()
        return
    names = subprocess.run(['git', 'ls-tree', '-r', '--name-only', commit, 'crates'], cwd=ROOT, capture_output=True, text=True, check=True)
    for name in names.stdout.split():
        if name.endswith('.rt') and '/src/' in name:
            yield name, subprocess.run(['git', 'show', f'{commit}:{name}'], cwd=ROOT, capture_output=True, text=True, check=True).stdout


def functions(text):
    """Each function's line number, and its signature and clauses on one line."""
    for m in re.finditer(r'^ *(pub )?fn \w+', text, re.M):
        end = re.search(r'^ *\{$|\{$', text[m.start():], re.M)
        yield text.count('\n', 0, m.start()) + 1, ' '.join(text[m.start():m.start() + (end.start() if end else 400)].split())


def places(commit):
    for name, text in sources(commit):
        for number, line in enumerate(text.splitlines(), 1):
            code = line.split('//')[0]
            for point, what, pattern in LINES:
                for _ in re.finditer(pattern, code):
                    yield point, what, f'{name}:{number}'
        for number, head in functions(text):
            for point, what, test in FUNCTIONS:
                if test(head):
                    yield point, what, f'{name}:{number} {head[:70]}'


def main():
    args = [a for a in sys.argv[1:] if a != '-l']
    found = {(point, what): [] for point, what, _ in LINES + FUNCTIONS}
    for point, what, place in places(args[0] if args else None):
        found[point, what].append(place)
    for point, what in sorted(found, key=lambda key: key[0]):
        print(f'{point}  {len(found[point, what]):4}  {what}')
        if '-l' in sys.argv:
            for place in found[point, what]:
                print(f'         {place}')


if __name__ == '__main__':
    main()
