#!/usr/bin/env python3
"""Runs the tests and documented examples of the crate sharded-slab over library/sharded-slab.

usage: library/rust/peer-tests.py [FOLDER OF THE ORIGINAL'S SOURCE]

The source is that of Debian's package librust-sharded-slab-dev, if no folder is named. Its tests are written into a
temporary folder, which is removed at the end; nothing of the original stays here. Three things are changed in them:
loom's threads are those of std, each model is run 100 times, and what tests reach by `crate::` they reach by the
crate's name. A test or example that looks inside the original is left out, and named with its reason.

It needs cargo, and what library/rust/build.rs needs. SHARDHEAP_LIB_DIR is passed on.
"""
import glob
import os
import re
import subprocess
import sys
import tempfile

SHIM = os.path.join(os.path.dirname(os.path.dirname(os.path.abspath(__file__))), 'sharded-slab')

BITS = 'it looks at the bits of keys by functions inside the original'
PROPTEST = 'it tests how the original packs bits, by proptest'
# The tests of each file that are left out, by the path that cargo would give them.
LEFT_OUT = {
    'src/tests/loom_slab.rs': {
        'max_refs': 'it reads the count of references of a type inside the original',
        'local_remove': BITS, 'local_take': BITS,
    },
    'src/tests/loom_pool.rs': {'clear_local_and_reuse': BITS},
    'src/tests/mod.rs': {'tid_roundtrips': PROPTEST, 'idx_roundtrips': PROPTEST},
    'src/cfg.rs': {
        'validates_max_refs': 'it wants a panic since few bits are left for counting references: here none are needed',
    },
    'src/page/mod.rs': {'addr_roundtrips': PROPTEST, 'gen_roundtrips': PROPTEST, 'page_roundtrips': PROPTEST},
    'src/page/stack.rs': {'transfer_stack': 'it tests a type inside the original'},
}

HEAD = '''#![allow(unused, clippy::all)]
use sharded_slab::{Clear, Config, Pool, Slab};
use std::sync::{atomic::{AtomicBool, Ordering}, Arc, Condvar, Mutex};
use std::thread;

fn run_model(_name: &str, f: impl Fn()) {
    for _ in 0..100 {
        f();
    }
}

macro_rules! test_println { ($($part:tt)*) => {}; }
macro_rules! test_dbg { ($value:expr) => { $value }; }

pub struct TinyConfig;

impl sharded_slab::Config for TinyConfig {
    const INITIAL_PAGE_SIZE: usize = 4;
}

mod test_util {
    pub use super::TinyConfig;
}

mod alloc {
    #[derive(Debug, Default)]
    pub struct Track<T>(T);

    impl<T> Track<T> {
        pub fn new(value: T) -> Self { Track(value) }
        pub fn get_ref(&self) -> &T { &self.0 }
        pub fn get_mut(&mut self) -> &mut T { &mut self.0 }
    }

    impl<T: sharded_slab::Clear> sharded_slab::Clear for Track<T> {
        fn clear(&mut self) { self.0.clear() }
    }
}
'''


def read(*path):
    with open(os.path.join(*path), encoding='utf-8') as file:
        return file.read()


def item(text, at):
    """The item that begins at this place, up to the brace that ends it."""
    indent = re.match(r' *', text[text.rindex('\n', 0, at) + 1:]).group()
    return text[at:text.index(f'\n{indent}}}\n', at) + len(indent) + 3]


def tests_of(text):
    """The names of the tests in a source."""
    return re.findall(r'#\[test\]\n(?: *#\[[^\n]*\]\n)* *fn (\w+)\(', text)


def without_test(text, name):
    """The text without the test of this name."""
    found = re.search(rf'( *)#\[test\]\n(?: *#\[[^\n]*\]\n)* *fn {name}\(', text)
    end = f'\n{found[1]}}}\n'
    return text[:found.start()] + text[text.index(end, found.start()) + len(end):]


def ported(text, left_out):
    """The tests of a source, over the drop-in, without those that are left out."""
    for name in left_out:
        text = without_test(text, name)
    changes = (
        (r'    let mut model = loom::model::Builder::new\(\);\n(?: *model\.\w+ = \w+;\n)*', ''),
        (r'run_builder\("(\w+)", model, ', r'run_model("\1", '),
        (r'model\.check\(', 'run_model("model", '),
        (r'#\[cfg_attr\(loom, ignore\)\]\n', ''),
        (r'crate::(?:cfg::)?(Config|Clear|pool|Slab|Pool)\b', r'sharded_slab::\1'),
    )
    for old, new in changes:
        text = re.sub(old, new, text)
    return text


def of_loom(text, left_out):
    """The tests of a file of src/tests, from its first item on."""
    start = re.search(r'^(#\[|struct |mod |fn )', text, re.M).start()
    body = ported(text[start:], left_out)
    # A module whose tests are all left out uses nothing that stays.
    return HEAD + re.sub(r'\nmod free_list_reuse \{.*?\n\}\n', '\n', body, flags=re.S)


def of_module(text, left_out):
    """The tests of a source's module `tests`."""
    start = text.index('mod tests {\n') + len('mod tests {\n')
    body = re.sub(r'^ *use .*;\n', '', text[start:text.index('\n}\n', start)], flags=re.M)
    return HEAD + ported(body + '\n', left_out)


def documented(text, comment):
    """The blocks of Rust in comments, or in a document: of each whether it is to be run."""
    block, found = None, []
    for line in text.split('\n'):
        match = re.match(r'^\s*//[/!] ?(.*)$' if comment else r'^(.*)$', line)
        if not match:
            block = None
        elif match[1].strip().startswith('```'):
            if block and block[0] in ('```', '```rust'):
                found.append(block[1])
            block = None if block else (match[1].strip(), [])
        elif block:
            block[1].append(re.sub(r'^# ', '', match[1]))
    return found


def examples(blocks):
    """Each block as a test."""
    tests = ['#![allow(unused, clippy::all)]']
    for number, lines in enumerate(blocks):
        code = '\n'.join(lines)
        run = '\nmain();' if 'fn main' in code else ''
        tests.append(f'#[test]\nfn example_{number:02}() {{\n{code}{run}\n}}')
    return '\n'.join(tests)


def files_of(peer):
    """What is written into the temporary crate."""
    texts = [read(peer, f'src/{name}.rs') for name in ('lib', 'pool', 'cfg', 'clear')]
    blocks = [block for text in texts for block in documented(text, True)]
    return {
        'Cargo.toml': '[package]\nname = "peer-tests"\nversion = "0.0.0"\nedition = "2021"\n'
                      f'[dependencies]\nsharded-slab = {{ path = "{SHIM}" }}\n[workspace]\n',
        'src/lib.rs': '',
        'tests/slab.rs': of_loom(read(peer, 'src/tests/loom_slab.rs'), LEFT_OUT['src/tests/loom_slab.rs']),
        'tests/pool.rs': of_loom(read(peer, 'src/tests/loom_pool.rs'), LEFT_OUT['src/tests/loom_pool.rs']),
        'tests/cfg.rs': of_module(read(peer, 'src/cfg.rs'), LEFT_OUT['src/cfg.rs']),
        'tests/examples.rs': examples(blocks + documented(read(peer, 'README.md'), False)),
    }


def all_tests(peer):
    """The names of all tests of the original, by the file that has them."""
    sources = sorted(glob.glob(os.path.join(peer, 'src/**/*.rs'), recursive=True))
    return {os.path.relpath(source, peer): tests_of(read(source)) for source in sources if tests_of(read(source))}


def main():
    folders = sys.argv[1:] or sorted(glob.glob('/usr/share/cargo/registry/sharded-slab-*'))
    if not folders:
        print('skipped: there is no sharded-slab in /usr/share/cargo/registry (librust-sharded-slab-dev)')
        return 0
    peer = folders[-1]
    print(f'original: {peer}')
    files = files_of(peer)
    with tempfile.TemporaryDirectory() as folder:
        for name, text in files.items():
            os.makedirs(os.path.dirname(os.path.join(folder, name)), exist_ok=True)
            with open(os.path.join(folder, name), 'w', encoding='utf-8') as file:
                file.write(text)
        environment = {'CARGO_TARGET_DIR': os.path.join(folder, 'target'), **os.environ}
        done = subprocess.run(['cargo', 'test', '--offline', '--release', '--no-fail-fast', '--tests'], cwd=folder,
                              env=environment, stdout=subprocess.PIPE, stderr=subprocess.STDOUT, text=True)
    lines = done.stdout.split('\n')
    ran = [line.split()[1].split('::')[-1] for line in lines if re.match(r'test .* ok$', line)]
    run_examples = sum(name.startswith('example_') for name in ran)
    if done.returncode:
        print('\n'.join(lines))
    print(f'{len(ran) - run_examples} tests and {run_examples} documented examples of the original pass')
    missing = done.returncode != 0
    for file, names in all_tests(peer).items():
        left_out = LEFT_OUT.get(file, {})
        for name in names:
            if name in left_out:
                print(f'left out: {file}, {name}: {left_out[name]}')
            elif name not in ran:
                print(f'NOT RUN: {file}, {name}')
                missing = True
    return int(missing)


if __name__ == '__main__':
    sys.exit(main())
