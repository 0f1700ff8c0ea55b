"""The counts of the tree in the documents.

A block is between two lines of their own:

    <!-- counts: NAME -->
    <!-- end of counts -->

NAME is one of
    tree        a table: lines of code, of specs, of proofs and of tests, crates, wrong bodies, tests, examples, library
    groups      a table: crates and lines of each group of crates.txt
    to-read     a table: the files that one has to read to trust the headline, in order, with their lines
    read-lines  a sentence: how many lines and files these are
    crates      a sentence: how many crates and edges crates.txt has, and its longest chain of crates
    matrix      a table: which move each lemma over moves has a clause for, where the others go by its last clause

A count in a sentence is written <!-- count: NAME -->123<!-- -->. It must not begin its line, since Markdown takes such
a line for HTML. NAME is one of: crates, edges, chain, code, specs, proofs, tests, wrong-bodies, test-functions,
examples, library-c, library-rust, read-files, read-lines; actions, refutations, clauses (of the theorem); words.

The words are those of all Markdown. A word is a run of characters between blanks that has a letter. Not counted are
fenced code, code in backticks, what a tool generates (blocks and counts), comments, and the targets of links.

Only files that git tracks are read. Blocks and counts in fenced code, and counts in backticks, are left alone.
"""
import collections
import functools
import itertools
import re
import sys
import textwrap

import tree
from checks import told
from texts.markdown import CODE, FENCED, GENERATED, table, tracked
from tree import TOP

END = "<!-- end of counts -->"
MARK = re.compile(
    rf"^<!-- counts: (?P<block>\S+) -->\n|^(?P<end>{END})$|(?<!`)<!-- count: (?P<count>\S+) -->(?P<old>.*?)<!-- -->",
    re.M,
)
STRAY = re.compile(r"(?<!`)<!-- (?:counts?|end of counts)\b[^\n]*")
# what has no words that count, in this order: fenced code, generated blocks and counts, comments, code in backticks,
# the targets of links, and tags of HTML
NO_WORDS = [FENCED, GENERATED, re.compile(r"<!-- count: \S+ -->.*?<!-- -->"), re.compile(r"<!--.*?-->", re.S), CODE]
NO_WORDS += [re.compile(it, re.S) for it in (r"(?<=\])\([^()]*\)", r"<[^<>]*>")]
WORD = re.compile(r"\S*[^\W\d_]\S*")
# a text of seven words for the self-test, and texts that add no word to it
SEVEN = "Of `code in backticks` and [links to it](a/file.md#a-part), 17 are - **words**.\n"
ADD_NONE = [
    "```sh\nsome code\n```\n",
    f"<!-- counts: tree -->\na table\n{END}\n",
    "<!-- bench rows: uses, all -->\n\nOne run\n\n<!-- end of bench rows -->\n",
    "> <!-- count: crates -->sixty<!-- -->\n",
    "<!-- a remark\nof two lines -->\n",
    '<img src="of.png" alt="a picture">\n',
    "1,234 | --- | 5.6\n",
]
# what may be before the first word of a line
HEAD = re.compile(r"[\s>]*([-*+]|\d+[.)])?\s*")
# crates of tests alone, beside those whose names begin with test_
TESTS_ALONE = {"test_orders"}
# files of tests in another crate
TESTS_INSIDE = re.compile(r"crates/\w+/src/tests(?:\.rt$|/)")
# the kinds of lines of a crate, and what is counted of other files: by files, or by lines
KINDS = ["code", "specs", "proofs", "tests"]
OF_FILES = {"wrong-bodies": r"crates/\w+/(refused|must-fail)/[^/]*\.edit", "examples": r"examples/.*\.script"}
OF_LINES = {"library-c": r"library/.*\.(h|hpp|c|cpp)", "library-rust": r"library/.*\.rs"}
ROWS = [
    ("crates", "crates"),
    ("lines of code, with contracts and comments", "code"),
    ("lines of definitions (`specs/`)", "specs"),
    ("lines of proofs (`proofs/`)", "proofs"),
    ("lines of tests, in crates and modules of their own", "tests"),
    ("wrong bodies that the proofs must refuse (files in `refused/` and `must-fail/`)", "wrong-bodies"),
    ("test functions", "test-functions"),
    ("example scripts with a stored output (`examples/`)", "examples"),
    ("lines of C and C++ of the library, with its tests", "library-c"),
    ("lines of Rust of the library, with its tests", "library-rust"),
]

# what one has to read to trust the headline: a subject, and the files of each folder
TO_READ = [
    ("the map: entries, and which lists of entries are legal", "sh_history/src entry; sh_history/specs History Log"),
    ("keys, shapes, classes, and the places of words", "sh_key/specs Layout; sh_shape/specs Shape Classes Places"),
    ("what one word says", "sh_word/specs Fields; sh_slots/src hand; sh_slots/specs Slots; sh_stack/specs Stack;"
     " sh_bell/specs Bell"),
    ("the actions, and the table `row`: what each action requires, does and leaves", "sh_step/src action moves body;"
     " sh_step/specs Plans Collections Operations Parts Rows Moves"),
    ("what a list of events leaves, and what was put on each list", "sh_core/specs Words Worlds Lists"),
    ("the theorem, with the definitions that its clauses cite", "sh_core/specs Tallies Stacks Bells InHeap KeyEnds"
     " Looks Variants Refines; sh_step/specs Conditions Ends; sh_core/src claims"),
    ("the rule of the running heap, and the file that touches its words", "sh_step/specs Footsteps; sh_core/specs Kept"
     " Trails; sh_table/specs Views Tales TableNumbers Reached Orders; sh_table/src rule table"),
    ("what the calls of a pass do", "sh_pass/specs Deciding Growing Passes Rooms Fetching Remaining Receipts;"
     " sh_pass/src keeping room pass receipt"),
    ("what the calls of an owner do", "sh_pass/specs Owners; sh_shard/specs Slots Pages Turning Works Leaving Filing"
     " Bounds Shards RemoteFrees; sh_shard/src shard shard/adopting shard/calls shard/collecting shard/insert"
     " shard/leaving"),
    ("what the contracts of 7 to 9 cite besides", "sh_step/specs Fits; sh_core/specs Outcomes; sh_table/specs Seats"
     " Steps Whole; sh_lists/specs Lists Numbers; sh_states/specs States; sh_queue/specs Numbers Queues;"
     " sh_shard/specs Steps Returning"),
]
# counts of one file: its path, and what is counted there
IN_ONE_FILE = {
    "actions": ("crates/sh_step/src/moves.rt", r"^    [A-Z]\w*\(.*\),$"),
    "clauses": ("crates/sh_core/src/claims.rt", r"^    ensures \w+ \{"),
    "refutations": ("crates/sh_core/src/refuted.rt", r"^    ensures \w+ \{ ¬"),
}

# the moves of sh_core, and which of its lemmas have a clause for each: the head of a column, the file, and the lemma
PROOFS = TOP / "crates/sh_core/proofs"
COLUMNS = [
    ("agreement", "Moves/RunAll", "all_move"), ("notes", "Kept/ReadNotes", "owes"),
    ("places", "Kept/StaysInHeap", "within_part"), ("holds", "Kept/HoldsInBound", "bounded"),
    ("words", "Kept/WordNotes", "tells"), ("retired", "Kept/LastGenerations", "row_writes_last"),
    ("flags", "Kept/Flags", "row_writes_alone"), ("looks", "Kept/Looks", "after"),
    ("place", "Kept/PlacesInHeap", "place_of"), ("count", "Kept/PlacesInHeap", "moves_count"),
    ("stores", "Kept/RowsFit", "stores"), ("issued", "Kept/RowsFit", "issued"), ("gets", "Words/Ready", "gets"),
]
# a block or a count in a text: the place of its content, and what it should be
Found = collections.namedtuple("Found", "begin end name right")


def text_of(path):
    try:
        return (TOP / path).read_text()
    except FileNotFoundError:
        sys.exit(f"counts: {path} is listed in TO_READ and is not in the tree")


def word_count(text):
    for no_words in NO_WORDS:
        text = no_words.sub("", text)
    return len(WORD.findall(text))


def is_test_crate(name):
    return name.startswith("test_") or name in TESTS_ALONE


def longest_chain(crates):
    """The longest chain of crates without those of tests; of several, the first in the order of crates.txt."""
    order = {name: place for place, name in enumerate(crates)}

    def first_longest(chains):
        return min(chains, key=lambda chain: (-len(chain), [order[name] for name in chain]), default=[])

    @functools.cache
    def chain_to(name):
        return first_longest([chain_to(other) for other in crates[name].own]) + [name]

    return first_longest([chain_to(name) for name in crates if not is_test_crate(name)])


def counted(paths):
    """The lines of each crate by their kinds, and the counts of files and lines of the whole tree."""
    by_crate, counts = collections.defaultdict(collections.Counter), collections.Counter()
    for path in paths:
        crate = re.match(r"crates/(\w+)/(src|specs|proofs)/.*\.(rt|antt)$", path)
        if crate:
            is_test = is_test_crate(crate[1]) or TESTS_INSIDE.match(path)
            kind = {"src": "tests" if is_test else "code"}.get(crate[2], crate[2])
            by_crate[crate[1]][kind] += text_of(path).count("\n")
            if crate[3] == "rt":
                counts["test-functions"] += len(re.findall(r"^\s*#\[test\]", text_of(path), re.M))
        counts.update(name for name, form in OF_FILES.items() if re.fullmatch(form, path))
        counts.update({name: text_of(path).count("\n") for name, form in OF_LINES.items() if re.fullmatch(form, path)})
        if path.endswith(".md"):
            counts["words"] += word_count(text_of(path))
    for name, (path, what) in IN_ONE_FILE.items():
        counts[name] = len(re.findall(what, text_of(path), re.M))
    return by_crate, sum(by_crate.values(), counts)


def groups_table(crates, by_crate):
    groups = {crate.group: [] for crate in crates.values()}
    for name, crate in crates.items():
        groups[crate.group].append(name)
    rows = []
    for group, names in [*groups.items(), ("all", list(crates))]:
        lines = sum((by_crate[name] for name in names), collections.Counter())
        rows.append([group, f"{len(names):,}", *(f"{lines[kind]:,}" for kind in KINDS)])
    return table(["Group", "Crates", "Code", "Definitions", "Proofs", "Tests"], rows)


def to_read():
    rows, lines = [], []
    for place, (subject, folders) in enumerate(TO_READ, 1):
        begun, said = len(lines), []
        for where, *names in (folder.split() for folder in folders.split(";")):
            suffix = "rt" if where.endswith("src") else "antt"
            lines += [text_of(f"crates/{where}/{name}.{suffix}").count("\n") for name in names]
            said.append(f"`{where}`: {', '.join(names)}")
        rows.append([str(place), subject, "; ".join(said), f"{sum(lines[begun:]):,}"])
    return table(["#", "What", "Files", "Lines"], [*rows, ["", "all", "", f"{sum(lines):,}"]]), lines


def moves():
    text = (TOP / "crates/sh_step/src/moves.rt").read_text()
    body = text[text.index("pub enum Move {"):]
    return re.findall(r"^    ([A-Z][A-Za-z]*)\(", body[:body.index("\n}\n")], re.M)


def clauses(file, lemma, names):
    found = set()
    for line in (PROOFS / f"{file}.antt").read_text().split("\n"):
        head = re.match(rf"\s*{lemma} ([^=]*)", line)
        if head and " :" not in line.split("=")[0]:
            found |= {name for name in re.findall(r"\((?:move\.)?([A-Z][A-Za-z]*) ", head[1]) if name in names}
    return found


def matrix():
    names = moves()
    seen = [(head, clauses(file, lemma, names)) for head, file, lemma in COLUMNS]
    rows = [[name, *("x" if name in found else "" for _, found in seen)] for name in names]
    return table(["Move", *(head for head, _ in seen)], [*rows, ["clauses", *(str(len(found)) for _, found in seen)]])


def measured():
    paths, crates = tracked(), tree.listed()
    by_crate, counts = counted(paths)
    chain, (read_table, read) = longest_chain(crates), to_read()
    counts.update({"crates": len(crates), "edges": sum(len(it.own) for it in crates.values()), "chain": len(chain),
                   "read-files": len(read), "read-lines": sum(read)})
    told = {name: f"{n:,}" for name, n in counts.items()}
    blocks = {
        "tree": table(["What", "How many"], [(what, told[name]) for what, name in ROWS]),
        "groups": groups_table(crates, by_crate),
        "to-read": read_table,
        "read-lines": f"A sceptical reader has {told['read-lines']} lines to read in {told['read-files']} files: "
                      "definitions, and calls with contracts.",
        "crates": textwrap.fill(
            f"The {told['crates']} crates use one another by {told['edges']} edges. The longest chain has {len(chain)} "
            f"crates: {', '.join(f'`{name}`' for name in chain)}.", 120, break_on_hyphens=False),
        "matrix": matrix(),
    }
    return [path for path in paths if path.endswith(".md")], (blocks, told)


def look(text, measured):
    """The blocks and counts of a text up to the first fault of its form, and that fault: (block, what), or None."""
    found, opened = [], None
    plain = FENCED.sub(lambda code: " " * len(code[0]), text)
    stray = STRAY.search(MARK.sub("", plain))
    if stray:
        return found, (stray[0], "this is neither a block nor a count")
    for mark in MARK.finditer(plain):
        name = mark["block"] or mark["count"]
        if name and name not in measured[0 if mark["block"] else 1]:
            return found, (name, "there is no such block or count")
        if mark["block"] and opened:
            return found, (opened["block"], "it has no end")
        if mark["end"] and not opened:
            return found, ("?", "an end without a beginning")
        if mark["count"] and HEAD.fullmatch(text, text.rfind("\n", 0, mark.start()) + 1, mark.start()):
            return found, (name, "the count begins its line")
        if mark["block"]:
            opened = mark
        elif mark["end"]:
            found.append(Found(opened.end(), mark.start(), opened["block"], f"\n{measured[0][opened['block']]}\n\n"))
            opened = None
        else:
            found.append(Found(mark.start("old"), mark.end("old"), name, measured[1][name]))
    return found, (opened["block"], "it has no end") if opened else None


def faults(text, measured):
    """Each block or count that is wrong, with what is wrong: the first line in which it differs, or its form."""
    found, wrong = look(text, measured)
    for one in found:
        lines = itertools.zip_longest(text[one.begin:one.end].strip().split("\n"), one.right.strip().split("\n"))
        differing = next(((was, wanted) for was, wanted in lines if was != wanted), None)
        if differing:
            yield one.name, "has {!r}, should have {!r}".format(*differing)
    if wrong:
        yield wrong


def filled(text, measured):
    for one in reversed(look(text, measured)[0]):
        text = text[: one.begin] + one.right + text[one.end :]
    return text


def check():
    files, counts = measured()
    found = [f"{file}: {block}: {what}" for file in files for block, what in faults(text_of(file), counts)]
    return told("counts", found, f"{len(files)} documents")


def write():
    files, counts = measured()
    for file in files:
        new = filled(text_of(file), counts)
        if new != text_of(file):
            (TOP / file).write_text(new)
            print(f"wrote {file}")
    return check()


def copies(files, measured):
    """Texts that have the right counts: each document, and one that has each block and each count."""
    blocks, counts = measured
    every = [f"<!-- counts: {name} -->\n{END}\n" for name in blocks]
    every += [f"- {name}: <!-- count: {name} -->0<!-- -->\n" for name in counts]
    texts = {file: text_of(file) for file in files} | {"every.md": "\n".join(every)}
    return {file: filled(text, measured) for file, text in texts.items()}


def planted(texts, measured):
    """Texts with one fault each: the file, the block or count that is wrong, and the text."""
    for file, text in texts.items():
        for one in look(text, measured)[0]:
            # (its first digit changed)
            place = one.begin + re.search(r"\d", text[one.begin:one.end]).start()
            yield file, one.name, text[:place] + str((int(text[place]) + 1) % 10) + text[place + 1 :]
    yield "no end", "tree", "<!-- counts: tree -->\n"
    yield "two beginnings", "tree", f"<!-- counts: tree -->\n<!-- counts: crates -->\n{END}\n"
    yield "no beginning", "?", f"{END}\n"
    yield "no such block", "code", f"<!-- counts: code -->\n{END}\n"
    yield "no such count", "trees", "There are <!-- count: trees -->1<!-- --> of them.\n"
    yield "indented", "<!-- counts: tree -->", f"  <!-- counts: tree -->\n  {END}\n"
    yield "without an end", "<!-- count: code -->1 line.", "It has <!-- count: code -->1 line.\n"
    yield "first of its line", "code", "- <!-- count: code -->1<!-- --> lines.\n"


def self_test():
    """Whether the check passes each right copy, and names just the block or count that is wrong in each other one; and
    whether words are counted right: with a word more, and with what is no word."""
    files, counts = measured()
    texts = copies(files, counts)
    cases = [(file, [], text) for file, text in texts.items()]
    cases += [(file, [block], text) for file, block, text in planted(texts, counts)]
    wrong = []
    for text, words in ((SEVEN + none + more, 7 + len(more.split()))
                        for none in ["", *ADD_NONE] for more in ["", "One more\n"]):
        if word_count(text) != words:
            wrong.append(f"this has {words} words, and {word_count(text)} are counted: {text!r}")
    for file, expected, text in cases:
        seen = [block for block, _ in faults(text, counts)]
        if seen != expected:
            wrong.append(f"{file}: wrong is {expected}, and the check says {seen}")
    return told("counts, tried", wrong, f"{len(cases)} copies")
