#!/usr/bin/env python3
"""Spells the repository's own definitions and lemmas as today's Rattle does: camel case within a name becomes snake case (`numbersFrom` to
`numbers_from`); types, modules, names of src/ and what a dash joins stay. Run once, at the top, right after the kit's port.py."""
import re
import sys
from pathlib import Path

HEAD = re.compile(r'(?:(?:pattern|abbrev|unfoldable|pub|record|data|axiom)\s+)*([^\s:(){}]+)\s*(?::|\()')
INNER = re.compile(r'\s+(?:pub\s+)?([^\s:(){}]+)\s*:\s')
IDENT = r"[A-Za-z0-9_\-'?₀-₉+]"
WORD = re.compile(r"(?<![A-Za-z0-9_'?₀-₉\-+])([A-Za-z+][A-Za-z0-9_\-'?₀-₉]*)")


# Names that would fall together with another, or read badly, as the rule has them.
BY_HAND = {'noneOf': 'none_below', 'firstStep': 'first_step_of', 'atMostb': 'at_most_b'}


def spelled(name):
    """The name with each part between dashes that is no type in snake case."""
    def part(p):
        if p in BY_HAND:
            return BY_HAND[p]
        if not re.match(r'[a-z]', p) or not re.search(r'[A-Z]', p):
            return p
        return re.sub(r'(?<=[a-z0-9?])([A-Z])', lambda m: '_' + m.group(1).lower(), p).replace('__', '_')
    return '-'.join(part(p) for p in name.split('-'))


def declared(text):
    for line in text.splitlines():
        m = HEAD.match(line)
        if m and not line.startswith(' '):
            yield m.group(1)
        elif line.startswith(' '):
            m = INNER.match(line)
            if m:
                yield m.group(1)


def main():
    top = Path('.')
    antt = [p for p in top.glob('crates/*/**/*.antt') if 'out' not in p.parts]
    names = {n for p in antt for n in declared(p.read_text())}
    table = {n: spelled(n) for n in names if spelled(n) != n and re.match(r"^[a-zA-Z0-9_\-'?₀-₉]+$", n)}
    taken = names - set(table)
    for old, new in sorted(table.items()):
        if new in taken or [o for o in table if o != old and table[o] == new]:
            print('falls together:', old, new)
    count = 0
    for p in antt + list(top.glob('crates/*/src/*.rt')):
        text = p.read_text()
        lines = []
        for line in text.split('\n'):
            lines.append(WORD.sub(lambda m: table.get(m.group(1), m.group(1)), line))
        new = '\n'.join(lines)
        if new != text:
            p.write_text(new)
            count += 1
    print(f'{len(table)} names in {count} files')
    for old, new in sorted(table.items()):
        print(f'{old} -> {new}')


if __name__ == '__main__':
    sys.exit(main())
