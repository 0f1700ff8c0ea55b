#!/usr/bin/env python3
"""Makes a program of the examples in the C++ headers and in library/README.md: library/cpp/examples.py OUT.

An example is a block of lines of a comment that begin four columns further in: `///     CODE`, and `//     CODE` at
the head of shardheap.hpp. In README it is a fenced block of C++. Those of the headers begin with a heap of layout wide,
four passes and two shards; a pass, a shard, and the key of the value {7, 8}. The program runs each of them.

OUT gets the program, OUT.readme.cpp README's, which is a whole one.
"""
import pathlib
import re
import sys

HERE = pathlib.Path(__file__).resolve().parent
LINE = re.compile(r" *(///?) {5}(.*)$")
BEGIN = """    auto heap = gearlongan::heap::open(gearlongan::layout::wide, {2, 1, 4});
    auto shard = heap.take().adopt(0);
    auto pass = heap.take();
    [[maybe_unused]] const gearlongan::key key = shard.insert({7, 8});"""
HEAD = """#undef NDEBUG
#include "shardheap.hpp"
#include <array>
#include <cassert>
#include <cstdio>
#include <string>
#include <thread>
#include <unordered_map>
#include <vector>
"""


def examples(path):
    """The blocks of a header, each with its first line."""
    block, first = [], 0
    for number, line in enumerate([*path.read_text().splitlines(), ""], 1):
        found = LINE.match(line)
        if found and not block:
            first = number
        if found:
            block.append(found[2])
        elif block and re.match(r" *///?$", line):
            block.append("")
        elif block:
            yield first, block
            block = []


def main(out):
    text, calls = [HEAD], []
    for path in [HERE / "shardheap.hpp", *sorted((HERE / "gearlongan").glob("*.hpp"))]:
        for first, block in examples(path):
            name = f"{path.stem}_{first}"
            whole = any(line.startswith("#include") for line in block)
            body = "\n".join(f"    {line}" for line in block if not line.startswith("#include"))
            text.append(f'\nstatic void {name}() {{\n{"" if whole else BEGIN}\n#line {first} "{path}"\n{body}\n}}')
            calls.append(f"    {name}();")
    count = len(calls)
    text += ["\nint main() {", *calls, f'    std::puts("the {count} examples of the C++ headers");', "}", ""]
    pathlib.Path(out).write_text("\n".join(text))
    blocks = re.findall(r"^```cpp\n(.*?)^```$", (HERE.parent / "README.md").read_text(), re.M | re.S)
    if count < 40 or len(blocks) != 1:
        sys.exit(f"examples: {count} examples in the headers, and {len(blocks)} in README.md")
    pathlib.Path(f"{out}.readme.cpp").write_text(blocks[0])


if __name__ == "__main__":
    main(*sys.argv[1:])
