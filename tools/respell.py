#!/usr/bin/env python3
"""Brings this repository's own names to the spelling of today's Rattle, after the kit's own script.

    python3 tools/respell.py

Definitions, lemmas, fields and local names of specs/ and proofs/ become snake_case; types and modules keep their capital.
Names of src/ and names that a file imports from elsewhere stay. It says which names would fall together, and changes nothing then.
"""
import glob
import re
import sys
from collections import defaultdict

# What the kit's script or the rule would spell badly, or in one way with another name.
BY_HAND = {
    'field_own': 'own_at',
    # Lemmas, each beside a definition of that name.
    'first_read': 'first_read_lem',
    'full_at': 'full_at_lem',
    'no_step': 'no_step_lem',
    'nothing_left': 'nothing_left_lem',
    'written_at': 'written_at_lem',
}
# Lemmas whose name in snake case is a definition's: filled from the files.
LEMMAS = set()
TOKEN = re.compile(r"[A-Za-zμκλ_'′₀-₉◌0-9+\-*≤≡<]+")
NAME = re.compile(r"^\+?[a-zκμ][A-Za-z0-9_'′₀-₉◌\-]*$")


def snake(name):
    """The name in snake case: dashes and capitals become underscores."""
    if name in BY_HAND:
        return BY_HAND[name]
    if name in LEMMAS:
        return name.replace('-', '_') + '_lem'
    out = name.replace('-', '_')
    out = re.sub(r'([a-z0-9])([A-Z])', lambda m: m.group(1) + '_' + m.group(2).lower(), out)
    return out


def wanted(name):
    """Whether a token is a name of the older spelling. A part of a made name that begins with a capital, as in `in-Byte`, is no word."""
    if not NAME.match(name):
        return False
    if name in BY_HAND:
        return True
    parts = name.split('-')
    if any(part[:1].isupper() or part == '' for part in parts):
        return False
    return '-' in name or bool(re.search(r'[a-z0-9][A-Z]', name))


def foreign(text, crates):
    """The names that a file imports from other places than this repository."""
    names = set()
    for path, items in re.findall(r'\buse ([^\s;{]+)\.\{([^}]*)\}', text):
        head = path.split('.')
        own = head[0] == 'Rattle' and len(head) > 1 and head[1] in crates and head[2:4] != ['specs', 'declared']
        if not own:
            for item in items.split(','):
                names.update(part.strip() for part in item.split(' as '))
    return names


def made(name):
    """Whether a name is one that Rattle makes in a function's proofs."""
    return re.match(r'(invariant|decreases|loop|returns|overflow_\w+|bounds|slice_bounds|if|in_ok|in_err|match)-', name) is not None


def pieces(path, text):
    """The text in pieces, each with whether it is a comment."""
    mark = '--' if path.endswith('.antt') else '//'
    for line in text.split('\n'):
        at = line.find(mark)
        while at > 0 and not line[at - 1].isspace():
            at = line.find(mark, at + 1)
        if at < 0:
            yield line, ''
        else:
            yield line[:at], line[at:]


def turned(line, keep, fields, comment, source):
    out = []
    end = 0
    for match in TOKEN.finditer(line):
        name = match.group(0)
        new = name
        if wanted(name) and name not in keep and not made(name):
            after_dot = match.start() > 0 and line[match.start() - 1] == '.'
            if name in BY_HAND and source:
                out.append(line[end:match.end()])
                end = match.end()
                continue
            if comment and '-' in name and not (line[match.start() - 1:match.start()] == '`'):
                pass
            elif after_dot and name not in fields and not re.search(r'[A-Z]', name):
                pass
            else:
                new = snake(name)
        out.append(line[end:match.start()] + new)
        end = match.end()
    return ''.join(out) + line[end:]


def main():
    crates = {path.split('/')[1] for path in glob.glob('crates/*/')}
    files = sorted(glob.glob('crates/*/specs/**/*.antt', recursive=True) + glob.glob('crates/*/proofs/**/*.antt', recursive=True)
                   + glob.glob('crates/*/src/**/*.rt', recursive=True))
    texts = {path: open(path, encoding='utf-8').read() for path in files}
    # A record's fields, which stand after a dot too.
    fields = set()
    for path, text in texts.items():
        if path.endswith('.antt'):
            fields.update(re.findall(r'^\s+(?:pub )?([a-z][^\s:]*) : ', text, re.M))
    # Which old names come to one new name.
    olds = defaultdict(set)
    for path, text in texts.items():
        if path.endswith('.antt'):
            for name in re.findall(r'^\s*(?:abbrev |unfoldable |pub )*([a-z][^\s:{}()\[\],;=]*)(?: :|\s*[({])', text, re.M):
                olds[snake(name) if wanted(name) else name].add(name)
    for names in list(olds.values()):
        if len(names) > 1:
            LEMMAS.update(name for name in names if '-' in name)
    again = defaultdict(set)
    for names in olds.values():
        for name in names:
            again[snake(name) if wanted(name) else name].add(name)
    olds = again
    together = {new: names for new, names in olds.items() if len(names) > 1}
    for new, names in sorted(together.items()):
        print('together:', new, sorted(names))
    if together and '--anyway' not in sys.argv:
        return 1
    for path, text in texts.items():
        keep = foreign(text, crates)
        lines = []
        for code, comment in pieces(path, text):
            source = path.endswith('.rt')
            lines.append(turned(code, keep, fields, False, source) + turned(comment, keep, fields, True, source))
        new = '\n'.join(lines)
        if new != text:
            open(path, 'w', encoding='utf-8').write(new)
    return 0


if __name__ == '__main__':
    sys.exit(main())
