#!/usr/bin/env python3
"""Writes full-size sheets for measuring `fit`: 32 variables of 64 values, and nearly as many moves as a sheet has room for.

usage: python3 tools/full_size_sheets.py FOLDER      writes apart.sheet, orders.sheet and tables.sheet there

apart: 96 sum constraints, x and y at most d apart, d from 1 to 7.  orders: 96 sum constraints, x + d at most y, d from 0 to 2, the lower variable first.
tables: 60 table constraints, each pair allowed with probability 0.06.  Ends and moves are drawn by chance, the same at each run: a constraint that is in is
retracted, and one that is not is added.
"""
import os
import random
import struct
import sys

VARIABLES, VALUES = 32, 64


def record(kind, body):
    return struct.pack('<HH', 4 + len(body), kind) + body


def sum_constraint(a, b, m, k, lo, hi):
    return record(3, struct.pack('<BBhhii', a, b, m, k, lo, hi))


def apart(draw, a, b):
    d = draw.randrange(1, 8)
    return sum_constraint(a, b, 1, -1, -d, d)


def order(draw, a, b):
    return sum_constraint(min(a, b), max(a, b), -1, 1, draw.randrange(0, 3), VALUES - 1)


def table(draw, a, b):
    rows = (sum(1 << y for y in range(VALUES) if draw.random() < 0.06) for _ in range(VALUES))
    return record(4, struct.pack('<BB', a, b) + b''.join(struct.pack('<Q', row) for row in rows))


def sheet(constraint, count, moves):
    draw = random.Random(1)
    out = record(1, struct.pack('<HH', 1, VARIABLES))
    out += b''.join(record(2, struct.pack('<HH', VALUES, house)) for house in range(VARIABLES))
    out += b''.join(constraint(draw, *draw.sample(range(VARIABLES), 2)) for _ in range(count))
    present = set()
    for _ in range(moves):
        p = draw.randrange(count)
        out += record(6 if p in present else 5, struct.pack('<H', p))
        present ^= {p}
    return out + record(7, b'')


if len(sys.argv) != 2 or not os.path.isdir(sys.argv[1]):
    sys.exit(__doc__)
for name, constraint, count, moves in (('apart', apart, 96, 10400), ('orders', order, 96, 10400), ('tables', table, 60, 5500)):
    with open(os.path.join(sys.argv[1], name + '.sheet'), 'wb') as f:
        f.write(sheet(constraint, count, moves))
