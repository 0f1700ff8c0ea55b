#!/usr/bin/env python3
"""Whether shardheap.h says of the library what the library's sources say.

usage: library/c/agrees.py [ARCHIVE]

It compares each export of crates/c_exports with its declaration in the header, parameter by parameter; the records that
the library writes; each code with its number, in the module of Python too; and the version of the Rust crate with that
of the header, of each program, of the packages that documents name, and of the newest entry of CHANGELOG.md. With an
archive it also looks whether the archive exports what the header declares, and nothing beside it.
"""
import pathlib
import re
import subprocess
import sys

TOP = pathlib.Path(__file__).resolve().parent.parent.parent
HEADER = (TOP / 'library/include/shardheap.h').read_text(encoding='utf-8')
SOURCES = '\n'.join(it.read_text(encoding='utf-8') for it in sorted((TOP / 'crates/c_exports/src').glob('*.rt')))
PYTHON = (TOP / 'library/python/shardheap.py').read_text(encoding='utf-8')
REFUSALS = (TOP / 'crates/sh_value/src/refusal.rt').read_text(encoding='utf-8')

# What C has for a parameter of the library. The allocator has no size, so that C passes none.
TYPES = {
    'Global': [], 'u32': ['uint32_t'], 'u64': ['uint64_t'],
    '&mut HeapHandle': ['shardheap *'], '&mut PassHandle': ['shardheap_pass *'],
    '&mut ReceiptHandle': ['shardheap_receipt *'],
    '&[u64]': ['const uint64_t *', 'size_t'], '&mut [u64]': ['uint64_t *', 'size_t'],
    '&mut u64': ['uint64_t *'], '&mut u32': ['uint32_t *'],
    '&mut PageReport': ['shardheap_page *'], '&mut SumsReport': ['shardheap_sums *'],
    '&mut [Loaded]': ['shardheap_loaded *', 'size_t'],
    '&mut LiveKey': ['shardheap_live_key *'], '&mut HeldKey': ['shardheap_held_key *'],
    '&mut Ended': ['shardheap_ended *'],
    '': ['void'],
}

# The fields of the records that the library writes.
FIELDS = {'u32': '32 bits', 'u64': '64 bits', '[u64; WORDS_MAX]': '64 bits, 16 times'}

# Where the version is, by how it is written there.
VERSIONED = {
    r'\.version\("(.*)"\)': ['crates/*/src/**/*.rt'],
    r'\b(?:gearlongan|\w*shardheap[\w*-]*)[-_](\d+\.\d+\.\d+)': ['README.md', 'library/README.md'],
    r'(?s)\A.*?^## ([\d.]+)': ['CHANGELOG.md'],
    r'^version = "(.*)"$': ['bench/Cargo.toml', 'bench/*/Cargo.toml'],
}


def exported():
    """The exports of the library, as C would declare them: what each returns, and the types of its parameters."""
    found = re.findall(r'pub extern "C" fn (\w+)\(([^)]*)\)(?: -> (\w+))?', SOURCES)
    return {name: (TYPES[answer][0], [c for it in parameters.split(',') if it.strip()
                                      for c in TYPES[it.partition(':')[2].strip()]])
            for name, parameters, answer in found}


def declared():
    """The same, of the header."""
    found = re.findall(r'^(\w+) (shardheap_raw_\w+)\(([^)]*)\);', HEADER, re.M)
    return {name: (answer, [re.sub(r'\w+$', '', ' '.join(it.split())).strip() for it in parameters.split(',')])
            for answer, name, parameters in found}


def record_of(text, pattern, field):
    found = re.search(pattern, text, re.S)
    return re.findall(field, found[1], re.M) if found else None


def records():
    """The fields of each record, in the library and in the header: the type and the name of each."""
    for rust, c in (('PageReport', 'shardheap_page'), ('SumsReport', 'shardheap_sums'), ('Loaded', 'shardheap_loaded'),
                    ('LiveKey', 'shardheap_live_key'), ('HeldKey', 'shardheap_held_key'), ('Ended', 'shardheap_ended')):
        library = record_of(SOURCES, rf'pub struct {rust} \{{(.*?)\n\}}', r'pub (\w+): ([^,]+),')
        header = record_of(HEADER, rf'typedef struct {c} \{{(.*?)\n\}} {c};', r'^ +uint(\d+)_t (\w+)(?:\[(\d+)\])?;')
        yield (c, library and [(FIELDS.get(kind, kind), name) for name, kind in library],
               header and [(f'{bits} bits' + (f', {count} times' if count else ''), name)
                          for bits, name, count in header])


def numbered():
    """The codes that the library returns, by their names in C."""
    codes = {name: int(number) for name, number in re.findall(r'pub const (\w+): u32 = (\d+);', SOURCES)}
    for refusal, number in re.findall(r'Refusal::(\w+) => (\d+),', REFUSALS):
        # (WrongKind is a refusal of steps by hand, which C has not)
        if refusal != 'WrongKind':
            codes[re.sub(r'(?<=[a-z])(?=[A-Z])', '_', refusal).upper()] = int(number)
    return codes


def versions():
    """The places that have the version, and what is there. The header has its first two numbers alone."""
    yield 'the header', '.'.join(re.findall(r'^#define SHARDHEAP_VERSION_M\w+ (\d+)$', HEADER, re.M)) + '.0'
    for pattern, files in VERSIONED.items():
        for file in sorted(it for glob in files for it in TOP.glob(glob)):
            for found in re.findall(pattern, file.read_text(encoding='utf-8'), re.M):
                yield str(file.relative_to(TOP)), found


def differences():
    library, header = exported(), declared()
    for name in sorted(library.keys() | header.keys()):
        if library.get(name) != header.get(name):
            yield f'{name} is {library.get(name)} in the library and {header.get(name)} in the header'
    for name, of_library, of_header in records():
        if not of_library or of_library != of_header:
            yield f'{name} is {of_library} in the library and {of_header} in the header'
    of_header = {name: int(number) for name, number in re.findall(r'^ +SHARDHEAP_(\w+) = (\d+),?', HEADER, re.M)}
    for name, number in numbered().items():
        if of_header.get(name) != number:
            yield f'{name} is {number} in the library and {of_header.get(name)} in the header'
    of_python = {name: int(number) for name, number in re.findall(r'^    ([A-Z_]+) = (\d+)$', PYTHON, re.M)}
    for name in sorted({name for name, _ in of_header.items() ^ of_python.items()}):
        yield f'{name} is {of_header.get(name)} in the header and {of_python.get(name)} in Python'
    crate = re.search(r'^version = "(.*)"$', (TOP / 'library/rust/Cargo.toml').read_text(), re.M)[1]
    for place, version in versions():
        if version != (crate if place != 'the header' else crate.rpartition('.')[0] + '.0'):
            yield f'the version is {version} in {place} and {crate} in the Rust crate'


def archived(archive):
    """What the archive exports and the header does not declare, and the other way round."""
    said = subprocess.run(['nm', '-g', '--defined-only', archive], capture_output=True, text=True, check=True).stdout
    found = set(re.findall(r'^\w+ [A-Z] (\w+)$', said, re.M))
    for name in sorted(found ^ declared().keys()):
        yield f'{name} is only in the {"archive" if name in found else "header"}'


def main(words):
    found = [*differences(), *(it for archive in words for it in archived(archive))]
    for it in found:
        print(f'agrees: {it}')
    print(f'agrees: {len(declared())} exports and {len(numbered())} codes were compared, {len(found)} differences')
    return bool(found) or not declared() or not numbered()


if __name__ == '__main__':
    sys.exit(main(sys.argv[1:]))
