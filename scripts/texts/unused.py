"""Counts statements of the product whose value nothing uses. Most of them are there for a proof alone: a call for its
clauses, or a borrowed field for what is true of its struct. Over all crates there may be MOST of them, and no more. If
there are fewer, lower MOST. It counts, whatever the names are,

- a `let` without an `else`, if no name that it binds occurs later in its function; so `let _ = ..` counts too;
- a statement that only borrows, as `&self.held;`;
- a call as a statement, by a name that the product gives only to functions that take `&self` and return a value.

The product is the crates without those of tests, tools and examples, and without files of tests. A law, which is a
function with an empty body that is called by name alone, is not counted.
"""
import collections
import re

from checks import told
from tree import CRATES

MOST = 52
OTHERS = ("test_", "tool_", "example_")
QUOTED = r"""\"(?:\\.|[^"\\])*\"|'(?:\\.|[^'\\])'"""
COMMENT = re.compile(rf"({QUOTED})|//[^\n]*")
TEXT = re.compile(QUOTED)
FUNCTION = re.compile(r"\bfn (\w+)")
LET = re.compile(r"\blet\s+")
WORD = re.compile(r"\b[a-z_]\w*\b")
READS = re.compile(r"\bfn (\w+)(?:<[^(]*>)?\(\s*(&self\b)?[^;{]*?(?=\n\s*(?:requires|ensures|where)\b|[;{])")
CALL = re.compile(r"(?:^|[;{}])\s*(?:\w+\s*\.\s*)+(\w+)\s*\((?:[^;{}()]|\([^;{}()]*\))*\)\s*;")
BORROW = re.compile(r"(?:^|[;{}])\s*&\s*\w[\w.\s]*;")
NO_NAMES = {"mut", "ref", "box", "_"}


def blank(m):
    return re.sub(r"[^\n]", " ", m.group())


def code_of(text):
    return COMMENT.sub(lambda m: m.group(1) or blank(m), text)


def end_of(text, at, stop):
    """Where the first of the characters is that no bracket holds, from this place on."""
    depth = 0
    for i in range(at, len(text)):
        c = text[i]
        if depth == 0 and c in stop:
            return i
        if c in "([{":
            depth += 1
        elif c in ")]}":
            depth -= 1
            if depth < 0:
                return i
    return len(text)


def body_of(text, at):
    """The body of the function whose name ends at this place, as its first and last place, if it has one."""
    while at < len(text):
        at = end_of(text, at, ";{")
        if at == len(text) or text[at] != "{":
            return None
        end = end_of(text, at + 1, "}")
        # (the braces of a clause come before the body)
        if re.search(r"\b(?:requires|ensures)\b[^{};]*$", text[:at][-200:]):
            at = end + 1
            continue
        return at + 1, end
    return None


def names_bound(pattern):
    pattern = re.sub(r"\b\w+\s*:(?!:)", " ", pattern)
    pattern = re.sub(r"\b\w+\s*::", " ", pattern)
    return {w for w in WORD.findall(pattern) if w not in NO_NAMES}


def lets(body, code):
    """The places of the `let` statements of a body whose value nothing uses. A text may name a value to write."""
    for m in LET.finditer(body):
        before = body[: m.start()].rstrip()
        if before and before[-1] not in ";{}":
            # (`if let` and `while let`)
            continue
        equals = end_of(body, m.end(), "=;")
        if body[equals : equals + 1] != "=":
            continue
        end = end_of(body, equals + 1, ";")
        if re.search(r"\belse\s*\{", body[equals:end]):
            continue
        pattern = body[m.end() : equals]
        typed = end_of(pattern, 0, ":")
        if pattern[typed : typed + 2] != "::":
            pattern = pattern[:typed]
        rest = code[end:]
        if not any(re.search(rf"\b{w}\b", rest) for w in names_bound(pattern) if not w.startswith("_")):
            yield m.start()


def product():
    for file in sorted(CRATES.glob("*/src/**/*.rt")):
        parts = file.relative_to(CRATES).parts
        if not parts[0].startswith(OTHERS) and "tests" not in parts and file.name != "tests.rt":
            yield file, code_of(file.read_text())


def readers(codes):
    """The names that are given only to functions that take `&self` and return a value."""
    kinds = collections.defaultdict(set)
    for code in codes:
        for m in READS.finditer(TEXT.sub(blank, code)):
            kinds[m.group(1)].add(bool(m.group(2)) and "->" in m.group())
    return {name for name, reads in kinds.items() if reads == {True}}


def found(code, reading):
    text = TEXT.sub(blank, code)
    places = set()
    for m in FUNCTION.finditer(text):
        span = body_of(text, m.end())
        if span is None:
            continue
        body = text[span[0] : span[1]]
        places.update(span[0] + at for at in lets(body, code[span[0] : span[1]]))
        places.update(span[0] + b.end() for b in BORROW.finditer(body))
        places.update(span[0] + c.end() for c in CALL.finditer(body) if c.group(1) in reading)
    return sorted(places)


# Statements that must be found, among others that must not.
PLANTED = """
impl A {
    fn shape(&self) -> &Shape
        ensures { result.now ≡ self.now }
    {
        let _known = &self.held; // found
        self.shape
    }
    fn put(&mut self) -> u64 { 0 }
    fn get(&mut self, key: u64) -> Option<Hold> {
        let known = self.shape(); // found
        let shape = self.shape();
        let Some(hold) = self.hold else { return None; };
        let Pair { key, other: _ } = self.pair;
        let _ = (1, 2); // found
        &self.held; // found
        self.shape(); // found
        self.put();
        if let Some(x) = key { return None; }
        // let _known = 1;
        let quote = '"';
        let name = key;
        write(quote, "{name}");
        shape.get(key, hold)
    }
}
"""


def self_test():
    code = code_of(PLANTED)
    lines = {code[:at].count("\n") for at in found(code, readers([code]))}
    wanted = {n for n, line in enumerate(PLANTED.split("\n")) if line.endswith("// found")}
    wrong = [f"line {n} of the planted ones" for n in lines ^ wanted]
    return told("statements, tried", wrong, f"{len(wanted)} planted")


def check(shows=False):
    files = list(product())
    reading = readers(code for _, code in files)
    seen = [f"{file.relative_to(CRATES)}:{code.count(chr(10), 0, at) + 1}" for file, code in files
            for at in found(code, reading)]
    if shows or len(seen) > MOST:
        print(*seen, sep="\n")
    print(f"statements whose value nothing uses: {len(seen)}, and there may be {MOST}")
    if len(seen) < MOST:
        print("texts/unused.py: lower MOST")
    return len(seen) <= MOST
