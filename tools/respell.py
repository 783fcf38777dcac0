#!/usr/bin/env python3
"""Respells the repository's own definitions and lemmas: words in snake case (respelled.tsv beside this file, old name and new name).

usage: python3 tools/respell.py     at the top of the repository, once, after the library's own respelling (port.py)

It goes by whole names. A name that is code's own, of a function, a field or a variant, stays as it is: a name that already was in snake case is
respelled in definitions and proofs alone, and not in a path. Where a lemma and a definition fell together, the lemma ends in `_lem`.
"""
import os
import pathlib
import re

HERE = pathlib.Path(__file__).resolve().parent
TABLE = dict(line.rstrip('\n').split('\t') for line in open(HERE / 'respelled.tsv', encoding='utf-8'))
# what a name of a definition may hold
NAME = re.compile(r"[^\s(){}\[\];,.\"«»`:]+")
CAMEL = re.compile(r'^[a-z]\w*[A-Z]')


def respelled(text, code):
    """The text with each name respelled. code: definitions or proofs, where every name is one of the table's kind; a name between backquotes
    is one too, but for those that already were in snake case."""
    def one(m):
        name = m.group(0)
        new = TABLE.get(name)
        if new is None:
            return name
        if CAMEL.match(name):
            return new
        if '-' in name:
            quoted = m.string[:m.start()].count('`') % 2 == 1
            return new if code or quoted else name
        before, after = m.string[:m.start()][-1:], m.string[m.end():][:1]
        return new if code and before != '.' and after != '.' else name

    return NAME.sub(one, text)


def lines(text):
    """Definitions and proofs: a comment's names are respelled as a page's are."""
    out = []
    for line in text.split('\n'):
        at = 0 if line.lstrip().startswith('--') else line.find(' -- ')
        if at < 0:
            out.append(respelled(line, True))
        else:
            out.append(respelled(line[:at], True) + respelled(line[at:], False))
    return '\n'.join(out)


def edit(text):
    """A must-fail edit: its two texts as the file that it names, its words as a page."""
    out, antt = [], False
    for line in text.split('\n'):
        if line.startswith('file:'):
            antt = line.endswith('.antt')
        code = antt and line.startswith(('old:', 'new:'))
        out.append(respelled(line, code))
    return '\n'.join(out)


def main():
    for folder, dirs, files in os.walk('.'):
        dirs[:] = [d for d in dirs if d not in ('.git', 'out', 'target')]
        for name in files:
            path = pathlib.Path(folder, name)
            kinds = {'.antt': lines, '.rt': lambda t: respelled(t, False), '.edit': edit, '.md': lambda t: respelled(t, False)}
            if path.suffix not in kinds or path.parts[0] == 'tools':
                continue
            text = path.read_text(encoding='utf-8')
            new = kinds[path.suffix](text)
            if new != text:
                path.write_text(new, encoding='utf-8')


if __name__ == '__main__':
    main()
