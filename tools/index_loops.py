#!/usr/bin/env python3
"""Lists the loops over a range of numbers in src/, and says of each whether its counter is an index.

    tools/index_loops.py [COMMIT]

A loop counts an index by hand where its counter stands between brackets in its body, or is handed to `get` or `get_mut`. Where it runs over a list, and the
counter of `enumerate` reads or writes another list by place, it is said to go beside.
Without COMMIT the files are read as they stand.
"""
import re
import subprocess
import sys


def files(commit):
    if commit:
        names = subprocess.run(['git', 'ls-tree', '-r', '--name-only', commit, 'crates'], capture_output=True, text=True, check=True).stdout
    else:
        names = subprocess.run(['git', 'ls-files', 'crates'], capture_output=True, text=True, check=True).stdout
    for name in names.split('\n'):
        if name.endswith('.rt') and '/src/' in name:
            if commit:
                text = subprocess.run(['git', 'show', f'{commit}:{name}'], capture_output=True, text=True, check=True).stdout
            else:
                text = open(name).read()
            yield name, text.split('\n')


def main():
    commit = sys.argv[1] if len(sys.argv) > 1 else None
    totals = {'index': 0, 'range': 0, 'while': 0, 'beside': 0}
    for name, lines in files(commit):
        for at, line in enumerate(lines):
            loop = re.match(r'( *)for ([a-z_]+) in [^{]*\.\.', line)
            beside = re.match(r'( *)for \(([a-z_]+), [^{]*enumerate\(\)', line)
            other = re.match(r' *(while|loop)\b', line)
            if other:
                kind = 'while'
            elif loop or beside:
                loop, wanted = (loop, 'index') if loop else (beside, 'beside')
                counter = loop.group(2)
                body = []
                for later in lines[at + 1:]:
                    if later.startswith(loop.group(1) + '}'):
                        break
                    body.append(later)
                text = '\n'.join(body)
                indexed = rf'\[[^\]\n]*\b{counter}\b[^\]\n]*\]|get(_mut)?\([^)\n]*\b{counter}\b'
                kind = wanted if counter != '_' and re.search(indexed, text) else 'range'
                if wanted == 'beside' and kind == 'range':
                    continue
            else:
                continue
            totals[kind] += 1
            print(f'{kind:6} {name}:{at + 1}: {line.strip()}')
    print(', '.join(f'{n} {kind}' for kind, n in totals.items()))


main()
