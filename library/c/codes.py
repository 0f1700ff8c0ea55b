#!/usr/bin/env python3
"""Whether some test wants each code that shardheap.h and shardheap_table.h say a call may return.

usage: library/c/codes.py

In the header a call has a comment above it, whose codes are words in capitals. Each call may also return NULL, each
call on a handle NO_HANDLE, MOVED and, if it is of no table, BUSY, and each call that takes a pass and a key OTHER_HEAP.
In the tests beside this file a check is `IS(shardheap_CALL(..), SHARDHEAP_CODE)`. In place of the code `beyond` is CROWDED or HOLDS_FULL,
and `refused` is NO_HANDLE, MOVED or BUSY. `TRY(shardheap_CALL(..), ..)` wants MEMORY.
"""
import glob
import os
import re
import sys

HERE = os.path.dirname(os.path.abspath(__file__))

# What every call on a handle may return, and what a test wants that refuses each of them with one code.
OF_HANDLES = ('NO_HANDLE', 'MOVED', 'BUSY')
OF_TABLES = ('NO_HANDLE', 'MOVED')

# What no test can have. No program that keeps to what the head of the header asks of it can have the first two. The
# last comes only if other passes insert the key and take all holds that it may have, while the load is on its way.
NOT_TO_BE_HAD = {('give', 'OCCUPIED'), ('give', 'MEMORY'), ('load', 'CROWDED')}


def read(*path):
    with open(os.path.join(HERE, *path), encoding='utf-8') as file:
        return file.read()


def codes(header):
    """All codes by their names, without SHARDHEAP_."""
    return set(re.findall(r'^    SHARDHEAP_(\w+) = \d+,? +/\*', header, re.M)) - {'OK'}


def told(header, names):
    """The codes that the header says each call may return."""
    calls = re.findall(r'/\* ((?:(?!\*/).)*?) ?\*/\nSHARDHEAP_API uint32_t shardheap_(\w+)\(([^)]*)\)', header, re.S)
    wanted = set()
    for comment, call, parameters in calls:
        prose = re.sub(r'(?m)^ {7}.*$', '', comment)
        wanted |= {(call, name) for name in names if re.search(rf'\b{name}\b', prose)} | {(call, 'NULL')}
        if parameters.startswith(('shardheap *', 'shardheap_pass *')):
            wanted |= {(call, name) for name in OF_HANDLES}
        if 'shardheap_table *table' in parameters:
            wanted |= {(call, name) for name in OF_TABLES}
        if parameters.startswith('shardheap_pass *pass, uint64_t key'):
            wanted.add((call, 'OTHER_HEAP'))
    return wanted


def tested(text):
    """The codes that checks want of calls."""
    checks = re.findall(r'IS\(shardheap_(\w+)\(.*, SHARDHEAP_(\w+)\);', text)
    either = re.findall(r'IS\(shardheap_(\w+)\(.*, beyond\);', text)
    tries = re.findall(r'TRY\(shardheap_(\w+)\(', text)
    each = re.findall(r'IS\(shardheap_(\w+)\(.*, refused\);', text)
    return set(checks) | {(call, 'MEMORY') for call in tries} | {
        (call, name) for call in either for name in ('CROWDED', 'HOLDS_FULL')} | {
        (call, name) for call in each for name in OF_HANDLES}


def main():
    header = read('../include/shardheap.h')
    table = read('../include/shardheap_table.h')
    calls = header[header.index('/* ---- A heap ----'):] + table[table.index('/* ---- A table ----'):]
    wanted = told(calls, codes(header)) - NOT_TO_BE_HAD
    missing = wanted - tested(''.join(read(name) for name in sorted(glob.glob('*.[ch]', root_dir=HERE))))
    for call, name in sorted(missing):
        print(f'codes: no test wants {name} of shardheap_{call}')
    print(f'codes: {len(wanted - missing)} of {len(wanted)} codes of calls are wanted by a test')
    return bool(missing) or not wanted


if __name__ == '__main__':
    sys.exit(main())
