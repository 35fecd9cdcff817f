#!/usr/bin/env python3
"""respell.py [FOLDER]: spells the repository's own definitions and lemmas as today's Rattle does, by the table respelled.tsv beside this script.

It was run once, right after the kit's port.py, in the tree that this had turned: names of specs/ and of lemma files in snake case, and the crate logbook, whose name
is one of the kit's libraries, under the name logging. It turns whole words in .antt files, and in the clauses and `ghost use` items of .rt files; no function of
src/, no exported name, string, input or output. A row of the table is old, new, and, where only some crates mean that name, the beginnings of their paths.
"""
import os
import re
import sys

HERE = os.path.dirname(os.path.realpath(__file__))
WORD = re.compile(r'[^\s(){}.;,@"«»`\[\]|]+')
COMMENT = re.compile(r'(?<![^\s(){}.;,@"«»])--[^\n]*')
CLAUSE = re.compile(r'\b(?:requires|ensures)\*?\s*(?:\w+\s*)?\{|\bghost\s+\w+\s*[:=]\s*\{|\bghost\s+use\b[^;{]*\{')


def rows(crate_path):
    table = {}
    with open(os.path.join(HERE, 'respelled.tsv'), encoding='utf-8') as f:
        for line in f:
            old, new, *where = line.rstrip('\n').split('\t')
            if not where or any(crate_path.startswith(w) for w in where[0].split()):
                table[old] = new
    return table


def turned(text, table):
    return WORD.sub(lambda m: table.get(m[0], m[0]), text)


def labels(table):
    # Behind a dot in a proof of a function stands a label that Rattle makes of a function of src/, and no lemma.
    return lambda m: '.' + table.get(m[1], m[1]).removesuffix('_lem')


def of_antt(text, table):
    # A comment's word turns where the file's code has it, or where it stands in backquotes: elsewhere it may be English.
    code = COMMENT.sub('', text)
    mine = {w for w in WORD.findall(code) if w in table}

    def comment(m):
        spans = re.sub(r'`[^`]*`', lambda s: turned(s[0], table), m[0])
        return WORD.sub(lambda w: table[w[0]] if w[0] in mine and (re.search('[A-Z]', w[0]) or '_' in w[0]) else w[0], spans)

    out, at = [], 0
    for m in COMMENT.finditer(text):
        out += [turned(text[at:m.start()], table), comment(m)]
        at = m.end()
    return ''.join(out + [turned(text[at:], table)])


def of_rt(text, table):
    out, at = [], 0
    for m in CLAUSE.finditer(text):
        if m.start() < at:
            continue
        depth, end = 1, m.end()
        while depth and end < len(text):
            depth += {'{': 1, '}': -1}.get(text[end], 0)
            end += 1
        out += [text[at:m.start()], turned(text[m.start():end], table)]
        at = end
    text = ''.join(out + [text[at:]])
    return re.sub(r'//[^\n]*', lambda c: re.sub(r'`[^`\n]*`', lambda s: turned(s[0], {k: v for k, v in table.items() if re.search('[A-Z-]', k)}), c[0]), text)


def renamed(text):
    text = re.sub(r'\bRattle\.logbook\b', 'Rattle.logging', text)
    text = re.sub(r'\blogbook::', 'logging::', text)
    return re.sub(r'`logbook`', '`logging`', text)


def main():
    root = sys.argv[1] if len(sys.argv) > 1 else '.'
    if os.path.isdir(f'{root}/crates/logbook'):
        os.rename(f'{root}/crates/logbook', f'{root}/crates/logging')
        with open(f'{root}/crates.txt', encoding='utf-8') as f:
            text = f.read()
        with open(f'{root}/crates.txt', 'w', encoding='utf-8') as f:
            f.write(re.sub(r'\blogbook\b', 'logging', text))
    for folder, dirs, files in os.walk(f'{root}/crates'):
        dirs[:] = [d for d in dirs if d != 'out']
        for name in files:
            if not name.endswith(('.antt', '.rt')):
                continue
            path = os.path.join(folder, name)
            with open(path, encoding='utf-8') as f:
                was = f.read()
            table = rows(os.path.relpath(path, f'{root}/crates'))
            if name == 'Proof.antt':
                was_read = re.sub(r'\.(' + WORD.pattern + ')', labels(table), was)
            else:
                was_read = was
            text = renamed((of_antt if name.endswith('.antt') else of_rt)(was_read, table))
            if text != was:
                with open(path, 'w', encoding='utf-8') as f:
                    f.write(text)


main()
