"""Words and sentences that a reader has to read twice, in Markdown and in doc comments (`///` and `//!`):

- a sentence that begins with one of OPENINGS;
- one of WORDS;
- a doc comment that begins with "Answers": a function returns, a program prints;
- a sentence of more than MOST words. A table, a heading and code have no sentences, and code in backticks is one word.
"""
import re

from checks import told, tried
from texts.markdown import CODE, texts, tracked
from tree import TOP

MOST = 30
OPENINGS = re.compile(r"(?:Told are|Not proved are|Of an|Said is)\b")
WORDS = re.compile(
    r"\b(?:whoever|but for|tells?|told|so many|stands?|stood|at the most|put to use|from nothing|mend(?:s|ed|ing)?"
    r"|dear(?:er|est)?)\b",
    re.IGNORECASE,
)
# A sentence ends with one of these, unless an abbreviation or two dots are there.
END = re.compile(r"(?<![.])(?<!e\.g)(?<!i\.e)(?<!vs)[.!?](?![.])[)\"'*_]*(?:\s+|$)")


def words(sentence):
    """How many words a sentence has: code is one, and so is the text of a link."""
    sentence = re.sub(r"\]\([^)]*\)", "]", CODE.sub("code", sentence))
    return len(re.findall(r"[^\s]*\w[^\s]*", sentence))


def why(sentence):
    if OPENINGS.match(sentence.lstrip("*_(\"")):
        yield "an inverted opening"
    for word in WORDS.findall(CODE.sub("``", sentence)):
        yield f"the word '{word}'"
    if words(sentence) > MOST:
        yield f"a sentence of {words(sentence)} words"


def faults(path, name):
    for number, text in texts(path):
        if path.suffix != ".md" and text.startswith("Answers "):
            yield f"{name}:{number}: a doc comment begins with Answers: {text[:100]}"
        ends = [0, *(end.end() for end in END.finditer(text)), len(text)]
        for sentence in (text[begin:end].strip() for begin, end in zip(ends, ends[1:])):
            yield from (f"{name}:{number}: {fault}: {sentence[:100]}" for fault in why(sentence))


PLANTED = {
    "inverted.md": "# Title\n\nSaid is the least of the rounds.\n",
    "proved.md": "It works. Not proved are the header's functions.\n",
    "empty.md": "- An item.\n- Of an empty handle nothing is done.\n",
    "said.md": "> Of an owner it is said what it does.\n",
    "whoever.md": "A key helps whoever\nhas it.\n",
    "but_for.md": "All of them but for one.\n",
    "told.md": "A thread is told which one.\n",
    "use.rs": "/// A slot that is put to use.\nfn a() {}\n",
    "nothing.rs": "//! Built from nothing.\n",
    "before.rt": "    /// It stands before the next.\n    fn a() {}\n",
    "many.rs": "/// A value of so many words.\nfn a() {}\n",
    "tells.md": "The call tells which key it is.\n",
    "mend.rt": "/// A loop mends it.\nfn a() {}\n",
    "dear.md": "A division is dear.\n",
    "answers.rt": "/// Answers the word found.\nfn a() {}\n",
    "long.md": " ".join(["word"] * (MOST + 1)) + ".\n",
    "long.rt": "".join(f"/// {' '.join(['word'] * 10)}\n" for _ in range(5)) + "fn a() {}\n",
}
# These have no fault: code, tables, headings, and two sentences that are long together.
CLEAN = {
    "code.md": "```sh\n# whoever\n```\n\n| mend | " + " ".join(["word"] * 60) + " |\n\nA `dear` name.\n",
    "two.md": " ".join(["word"] * 30) + ". " + " ".join(["word"] * 30) + ".\n",
    "inner.rt": "// whoever reads a plain comment\nfn a() {}\n/// Returns the word found.\nfn b() {}\n",
}


def self_test():
    return tried("plain words", PLANTED, CLEAN, lambda path: faults(path, path.name))


def check(files=()):
    names = files or tracked("*.md", "*.rt", "*.rs")
    return told("plain words", [fault for name in names for fault in faults(TOP / name, name)], f"{len(names)} files")
