#!/usr/bin/env python3
"""make.py: makes crates/vectors/data/vectors and crates/vectors/stdout of all the tables of vectors in this folder.

A table's kind is the first word of its name, `load` of load-P6-31.tsv. It has a head line, `# inputs > outputs`, and a row a vector, its columns parted by
tabs. In the data a vector is the byte of its kind and then, with its length in two bytes before it, the row's inputs, field after field, each with its length
in two bytes before it (numbers in four bytes, little-endian). The output is what the program must print, a line a row, with the kind's word in front.

A new kind is a number in KINDS and a function here, and the same number and a module in crates/vectors/src.
"""
import glob
import os
import sys

HERE = os.path.dirname(os.path.abspath(__file__))
CRATE = os.path.join(HERE, '..', 'crates', 'vectors')
# The kinds' numbers, as crates/vectors/src/main.rt has them.
KINDS = {'load': 1, 'replay': 2, 'record': 3, 'reader': 4, 'depot': 5}
# The tables of these kinds are run from C alone, by c/run.
FROM_C = {'board'}


def octets(text):
    return b'' if text == '-' else bytes.fromhex(text)


def field(b):
    return len(b).to_bytes(2, 'little') + b


def number(n):
    return int(n).to_bytes(4, 'little')


def load(row):
    image = octets(row[0])
    asked = [x.split(':') for x in row[4].split(',')] if row[4] != '-' else []
    parts = ['%s:%s' % (n, image[int(o):int(o) + int(k)].hex()) for n, o, k in asked]
    return field(image) + field(bytes(int(n) for n, _, _ in asked)), ' '.join([row[1], row[2], row[3], ','.join(parts), row[5], row[6]])


def replay(row):
    return field(octets(row[0])) + field(octets(row[1])), ' '.join(row[2:7])


def record(row):
    event = octets(row[4])
    code, choice, given, position, final = row[5:10]
    wrote = event.hex() if int(position) > int(row[3]) else '-'
    inputs = field(octets(row[0])) + field(number(row[1]) + bytes([int(row[2])]) + number(row[3])) + field(event)
    return inputs, ' '.join([code, choice, given, position, final, wrote, 'kept'])


def reader(row):
    return field(octets(row[0])) + field(number(row[1])), ' '.join(row[2:5])


def depot(row):
    inputs = field(octets(row[0])) + field(octets(row[1])) + field(number(row[2]) + bytes([int(row[3])]))
    return inputs, ' '.join(row[4:7] + ['kept'])


def made(path):
    """The data and the output of one table."""
    kind = os.path.basename(path).split('-')[0]
    if kind in FROM_C:
        return b'', ''
    if kind not in KINDS:
        sys.exit('make.py: %s: no kind %s; there are: %s' % (path, kind, ' '.join(sorted(KINDS))))
    with open(path) as f:
        rows = [globals()[kind](line.rstrip('\n').split('\t')) for line in f if not line.startswith('#')]
    data = b''.join(bytes([KINDS[kind]]) + field(inputs) for inputs, _ in rows)
    return data, ''.join('%s %s\n' % (kind, line) for _, line in rows)


def main():
    tables = [made(path) for path in sorted(glob.glob(os.path.join(HERE, '*.tsv')))]
    os.makedirs(os.path.join(CRATE, 'data'), exist_ok=True)
    with open(os.path.join(CRATE, 'data', 'vectors'), 'wb') as f:
        f.write(b''.join(data for data, _ in tables))
    with open(os.path.join(CRATE, 'stdout'), 'w') as f:
        f.write(''.join(output for _, output in tables))


main()
