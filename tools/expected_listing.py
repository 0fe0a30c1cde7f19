#!/usr/bin/env python3
"""Works out what `fit` must print of an accepted sheet, from the definitions and apart from the engine: slowly, by taking out of all values those that
have no support until none goes, after each move anew.

usage: python3 tools/expected_listing.py SHEET      prints the listing of the sheet in that file
       python3 tools/expected_listing.py --wiped    writes the sheet `sheets/wiped.sheet` to standard output

The gate (`.ci/listings`) runs `fit` on each sheet in `sheets/` and compares what it prints with what the first prints.
"""
import struct
import sys

HOUSE = [
    (0, 1, lambda x, y: y <= x),
    (0, 2, lambda x, y: abs(x - y) <= 3),
    (3, 4, lambda x, y: abs(x - y) <= 8),
    (3, 5, lambda x, y: x <= 2 * y <= x + 40),
]


def records(data):
    at = 0
    while at < len(data):
        length, kind = struct.unpack_from('<HH', data, at)
        yield kind, data[at + 4:at + length]
        at += length


def sum_allows(m, k, lo, hi):
    return lambda x, y: lo <= m * x + k * y <= hi


def table_allows(rows):
    return lambda x, y: x < len(rows) and bool(rows[x] >> y & 1)


def decoded(data):
    """The sizes by house number, the constraints of the sheet and the house with their ends by house number, and the moves."""
    variables, constraints, moves = [], [], []
    for kind, body in records(data):
        if kind == 2:
            variables.append(struct.unpack('<HH', body))
        elif kind == 3:
            a, b, m, k, lo, hi = struct.unpack('<BBhhii', body)
            constraints.append((a, b, sum_allows(m, k, lo, hi)))
        elif kind == 4:
            a, b = body[:2]
            constraints.append((a, b, table_allows([row for row, in struct.iter_unpack('<Q', body[2:])])))
        elif kind in (5, 6):
            moves.append(('in' if kind == 5 else 'out', *struct.unpack('<H', body)))
    number = [house for _, house in variables]
    sizes = [size for size, _ in sorted(variables, key=lambda v: v[1])]
    renumbered = [(number[a], number[b], allows) for a, b, allows in constraints]
    return sizes, renumbered + HOUSE, moves


def largest(sizes, constraints):
    domains = [set(range(size)) for size in sizes]
    while True:
        gone = [(i, x) for a, b, allows in constraints
                for i, x in [(a, x) for x in domains[a] if not any(allows(x, y) for y in domains[b])]
                + [(b, y) for y in domains[b] if not any(allows(x, y) for x in domains[a])]]
        if not gone:
            return domains
        for i, x in gone:
            domains[i].discard(x)


def refusal(sizes, constraints, present, word, p):
    if p >= len(constraints):
        return 3
    if word == 'out':
        return None if p in present else 6
    if max(constraints[p][:2]) >= len(sizes):
        return 4
    return 5 if p in present else None


def missing(domains, others):
    return sum(len(domain - other) for domain, other in zip(domains, others))


def listing(data):
    sizes, constraints, moves = decoded(data)
    present, domains = set(), largest(sizes, [])
    for word, p in moves:
        cause = refusal(sizes, constraints, present, word, p)
        if cause is not None:
            yield f'{word} {p} no {cause}'
            continue
        present ^= {p}
        after = largest(sizes, [constraints[q] for q in present])
        count = missing(domains, after) if word == 'in' else missing(after, domains)
        wiped = next((i for i, domain in enumerate(after) if not domain), '-')
        yield f'{word} {p} {count} {wiped}'
        domains = after
    for i, domain in enumerate(domains):
        yield ' '.join(['at', str(i)] + ([str(x) for x in sorted(domain)] or ['none']))


def record(kind, body):
    return struct.pack('<HH', 4 + len(body), kind) + body


def sum_record(a, b, m, k, lo, hi):
    return record(3, struct.pack('<BBhhii', a, b, m, k, lo, hi))


def table_record(a, b, rows):
    return record(4, bytes([a, b]) + b''.join(struct.pack('<Q', row) for row in rows))


def move_records(moves):
    return [record(5 if word == 'in' else 6, struct.pack('<H', p)) for word, p in moves]


def wiped_sheet():
    """Five variables out of the house's order, two sums that cannot both hold, a table, and a sum beside them."""
    variables = [(5, 2), (4, 0), (12, 4), (3, 3), (6, 1)]
    constraints = [
        sum_record(0, 1, 1, -1, 1, 60),
        table_record(4, 3, [0b001, 0b011, 0b010, 0b010, 0b000, 0b001]),
        sum_record(1, 4, 1, 1, 2, 6),
        sum_record(1, 0, 1, -1, 0, 60),
    ]
    house = len(constraints)
    moves = [
        ('in', house), ('in', 1), ('in', 0), ('in', house + 1), ('out', house), ('in', house + 3), ('in', 2), ('out', 3), ('in', 3), ('in', 3),
        ('in', house + 2), ('out', 0), ('out', house + 1), ('in', house), ('out', 1), ('in', 0), ('in', house + 9), ('out', house + 1),
    ]
    parts = [record(1, struct.pack('<HH', 1, len(variables)))]
    parts += [record(2, struct.pack('<HH', size, number)) for size, number in variables]
    return b''.join(parts + constraints + move_records(moves) + [record(7, b'')])


def main():
    if sys.argv[1:] == ['--wiped']:
        sys.stdout.buffer.write(wiped_sheet())
    elif len(sys.argv) == 2:
        with open(sys.argv[1], 'rb') as file:
            print('\n'.join(listing(file.read())))
    else:
        sys.exit(__doc__)


main()
