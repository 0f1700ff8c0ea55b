#!/usr/bin/env python3
"""Fills the tables of measured times in documents from kept outputs of the bench.

    bench/tables.py RESULTS .. --write DOCUMENT ..    fills the blocks of these documents
    bench/tables.py RESULTS .. --missed               prints each number that is above its aim
    bench/tables.py --self-test                       fills a block of a small document, and plants faults

RESULTS are files with what `cargo run --release --offline -- ..` printed, named by date and commit:
`results/2026-11-24-7af2314.txt`. If several have all rows of a block, or one number with an aim, the last one counts.

A block is between two lines of its own:

    <!-- bench rows: NAME -->
    <!-- end of bench rows -->

It has a caption, which is written anew, and a table. The table says which rows and columns are wanted: its first
columns name a row, and the head of each other column is that of the output. A column that has a median keeps it, and
one whose head ends in `(aim)` keeps the aims. With `NAME, all` the block has all rows of the output's table that has
the same head. All rows of a block come from one file. A block of which the files have no row stays as it is.

A block that no run has filled is not shown. In its place is a comment with its name and the head of its table, which
becomes a block with all rows as soon as a file has a table with this head:

    <!-- bench rows to come: NAME
    | Workload | Threads | ns | -->

Between these two lines are the numbers that are above their aims, most of them ratios, unless no file has one with an
aim:

    <!-- bench missed -->
    <!-- end of bench missed -->

Exit status: 0 all is written, 1 a row or a column is missing (then nothing is written), 2 the command line is wrong.
"""
import collections
import os
import pathlib
import re
import sys
import tempfile
import textwrap

BLOCK = re.compile(
    r"(<!-- bench rows(?:: (?P<name>[\w-]+)(?P<all>, all)?)? -->\n)(?P<body>.*?)(<!-- end of bench rows -->)", re.S
)
TO_COME = re.compile(r"<!-- bench rows to come: (?P<name>[\w-]+)\n(?P<head>\|.*\|) -->\n")
ABOVE = re.compile(r"(<!-- bench missed -->\n).*?(<!-- end of bench missed -->)", re.S)
# the columns that name a row; of a heap that is opened the number of words is measured
KEYS = ("Workload", "Threads", "Call", "Map", "Values", "Words")
OPENING = "ns a word"
AIM = " (aim)"
AIMED = re.compile(r"(?:[\d.]+-)?([\d.]+) / \S+ \(([\d.]+)\)")

Table = collections.namedtuple("Table", "head rows")
Output = collections.namedtuple("Output", "path about tables")
# A number with an aim: of which row, in which column (a ratio is to a side), and the cell with both.
Aimed = collections.namedtuple("Aimed", "output key column cell is_missed")


class Fault(Exception):
    pass


def cells(line):
    return [cell.strip() for cell in line.strip().strip("|").split("|")]


def tables_of(lines):
    """The tables among some lines of Markdown."""
    found = []
    for line in lines:
        if not line.startswith("|"):
            found.append(None)
        elif found and found[-1] is not None:
            if not line.startswith("|--"):
                found[-1].rows.append(cells(line))
        else:
            found.append(Table(cells(line), []))
    return [table for table in found if table is not None]


def output_of(path):
    lines = path.read_text().splitlines()
    about = dict(line.split(": ", 1) for line in lines if re.match(r"[a-z][^|]*: ", line))
    return Output(path, about, tables_of(lines))


def columns(head):
    """The names of a head without aims; of a name that comes twice, which of the two it is."""
    seen = collections.Counter()
    for name in (cell.removesuffix(AIM) for cell in head):
        seen[name] += 1
        yield name, seen[name]


def is_key(name, head):
    return name in KEYS and not (name == "Words" and OPENING in head)


def key(row, head):
    return tuple(cell for cell, name in zip(row, head) if is_key(name, head))


def found_rows(table, wanted):
    """The rows of a table of the output for those that are wanted, None for a missing one; None for another table."""
    there, here = list(columns(table.head)), list(columns(wanted.head))
    keys = [name for name in table.head if is_key(name, table.head)]
    if not set(here) <= set(there) or keys != [name for name in wanted.head if is_key(name, table.head)]:
        return None
    known = {key(row, table.head): row for row in table.rows}
    rows = [known.get(key(row, wanted.head)) for row in wanted.rows]
    return [row and [row[there.index(column)] for column in here] for row in rows]


def cell_text(found, old, head):
    """A cell of the output in the form of its column: with or without the median, with or without the aim."""
    if AIM not in head:
        found = re.sub(r" \([\d.]+\)$", "", found)
    return found if " / " in old else re.sub(r" / \S+", "", found)


def forms(wanted):
    """For each column a cell that has a median, if one of them does."""
    return [next((row[at] for row in wanted.rows if " / " in row[at]), "") for at in range(len(wanted.head))]


def has_head(table, head):
    return list(columns(table.head)) == list(columns(head))


def filled(wanted, outputs, name, every):
    """The table of a block with the rows of the last output that has some, and that output."""
    fault = None
    for output in reversed(outputs):
        for table in output.tables:
            if every:
                if has_head(table, wanted.head):
                    return Table(wanted.head, table.rows), output
                continue
            rows = found_rows(table, wanted)
            if rows and all(rows):
                form = list(zip(forms(wanted), wanted.head))
                lines = [[cell_text(cell, *how) for cell, how in zip(row, form)] for row in rows]
                return Table(wanted.head, lines), output
            if rows and any(rows):
                missing = [" | ".join(key(old, wanted.head)) for old, row in zip(wanted.rows, rows) if row is None]
                fault = fault or f"{name}: {output.path.name} lacks the rows {'; '.join(missing)}"
    if fault:
        raise Fault(fault)
    return None, None


def date_and_commit(output):
    name = output.path.stem
    date = re.match(r"\d{4}-\d\d-\d\d", name)
    commit = output.about.get("its tree, as it is now") or (re.findall(r"-([0-9a-f]{7,})", name) or ["unknown"])[0]
    return f"{date[0] if date else 'undated'}, commit {commit}"


def link(words, output, document):
    return f"[{words}]({os.path.relpath(output.path.resolve(), document.resolve().parent)})"


def wrapped(text):
    return textwrap.fill(text, 120, break_long_words=False, break_on_hyphens=False)


def caption(table, output, document):
    about = output.about
    facts = [f"One run: {date_and_commit(output)}"]
    if "machine" in about:
        machine, _, processors = about["machine"].replace("(R)", "").partition(", processors: ")
        facts += [machine, f"{processors} processors"]
    if "rounds" in about:
        facts.append(f"{about['rounds']} round{'' if about['rounds'] == '1' else 's'}")
    text = ", ".join(facts) + f" ({link('raw output', output, document)})."
    if "warning" in about:
        text += f" The load at the start was {about['load at the start'].split()[0]}."
    body = [cell for row in table.rows for cell in row]
    if any(" / " in cell for cell in body):
        text += " The least of the rounds and the median."
    elif "rounds" in about:
        text += " The least of the rounds."
    if "to inside" in table.head:
        text += " A ratio is to the call inside."
    elif any(head.startswith("to ") for head in table.head):
        text += " Below 1 Gearlongan is faster."
    if any(re.match(r"[\d.]+-[\d.]", cell) for cell in body):
        text += " A range is that of up to three runs."
    return wrapped(text)


def table_text(table):
    head, *rows = ["| " + " | ".join(line) + " |" for line in [table.head, *table.rows]]
    return "\n".join([head, "|" + "---|" * len(table.head), *rows])


def written(text, document, outputs):
    """The document with its blocks filled, and the names of the blocks that stay as they are."""
    kept = []

    def begun(found):
        head = cells(found["head"])
        if not any(has_head(table, head) for output in outputs for table in output.tables):
            kept.append(found["name"])
            return found[0]
        empty = table_text(Table(head, []))
        return f"<!-- bench rows: {found['name']}, all -->\n\n{empty}\n\n<!-- end of bench rows -->\n"

    def block(found):
        name = found["name"] or "rows"
        wanted = tables_of(found["body"].splitlines())
        if not wanted:
            raise Fault(f"{document}: {name} has no table")
        table, output = filled(wanted[0], outputs, name, found["all"])
        if table is None:
            kept.append(name)
            return found[0]
        return f"{found[1]}\n{caption(table, output, document)}\n\n{table_text(table)}\n\n{found[5]}"

    def above(found):
        if not aimed(outputs):
            kept.append("missed")
            return found[0]
        return f"{found[1]}\n{missed_text(outputs, document)}\n\n{found[2]}"

    return ABOVE.sub(above, BLOCK.sub(block, TO_COME.sub(begun, text))), kept


def aimed(outputs):
    """Each number that has an aim. Of a number that several outputs have, the last one counts."""
    found = {}
    for output in outputs:
        for table in output.tables:
            for row in table.rows:
                for head, cell in zip(table.head, row):
                    number = AIMED.fullmatch(cell)
                    if number:
                        place = key(row, table.head), head.removesuffix(AIM)
                        is_missed = float(number[1]) > float(number[2])
                        found.pop(place, None)
                        found[place] = Aimed(output, *place, cell, is_missed)
    return list(found.values())


def missed(outputs):
    return [it for it in aimed(outputs) if it.is_missed]


def missed_text(outputs, document):
    """The caption and the table of the numbers that are above their aims. A row without threads has one."""
    sources = []
    for it in aimed(outputs):
        if it.output not in sources:
            sources.append(it.output)
    links = [f"{date_and_commit(output)} ({link('raw output', output, document)})" for output in sources]
    rows = [[it.key[0], (*it.key[1:], "1")[0], it.column, it.cell] for it in missed(outputs)]
    runs = ", and ".join(links)
    about = f"{len(rows)} of {len(aimed(outputs))} numbers with an aim are above it. The runs: {runs}."
    return f"{wrapped(about)}\n\n{table_text(Table(['Workload', 'Threads', 'Column', 'Number (aim)'], rows))}"


PRINTED = """program: a
its tree, as it is now: abc1234
machine: Some(R) Processor, processors: 4
rounds: 3

| Workload | Threads | ns | to `slab` (aim) | to `dash` |
|---|---|---|---|---|
| get | 1 | 24.2 / 31.9 | 1.03 / 1.19 (0.9) | none |
| get | 2 | 40.6-84.2 / 88.7-102.7 | 0.60-0.67 / 0.45-0.59 (0.8) | 1.00 / 1.00 |
"""
DOCUMENT = """Text.

<!-- bench rows: some -->

| Workload | Threads | to `dash` | ns |
|---|---|---|---|
| get | 2 | 9 | 1 / 2 |

<!-- end of bench rows -->
"""
COMING = """<!-- bench rows to come: room
| Removed | Room (aim) | -->
"""


def self_test():
    wrong = []
    with tempfile.TemporaryDirectory() as room:
        results, document = pathlib.Path(room) / "2026-01-02-abc1234.txt", pathlib.Path(room) / "some.md"
        results.write_text(PRINTED)
        other = pathlib.Path(room) / "2026-01-02-abc1234-room.txt"
        other.write_text("| Removed | Room |\n|---|---|\n| 50 % | 7 |\n")
        outputs = [output_of(results)]
        text, kept = written(DOCUMENT, document, outputs)
        row = "| get | 2 | 1.00 | 40.6-84.2 / 88.7-102.7 |"
        if row not in text or "2026-01-02, commit abc1234" not in text or kept:
            wrong.append(text)
        if written(text, document, outputs)[0] != text:
            wrong.append("a second time is not the same")
        if written(DOCUMENT.replace("to `dash`", "to `none`"), document, outputs)[1] != ["some"]:
            wrong.append("a column that is nowhere is not seen")
        if [it.key for it in missed(outputs)] != [("get", "1")] or len(aimed(outputs)) != 2:
            wrong.append("the missed aim is not found alone")
        if written(COMING, document, outputs) != (COMING, ["room"]):
            wrong.append("a block begins without a table")
        text, kept = written(COMING, document, [output_of(other)])
        if "<!-- bench rows: room, all -->" not in text or "| Room (aim) |\n|---|---|\n| 50 % | 7 |" not in text or kept:
            wrong.append(text)
        if written(text, document, [output_of(other)]) != (text, []):
            wrong.append("a block that began is not the same a second time")
        older = pathlib.Path(room) / "2026-01-01-abc1233.txt"
        older.write_text(PRINTED.replace("0.60-0.67", "0.60-0.97"))
        if missed([output_of(older), *outputs]) != missed(outputs) or len(missed([output_of(older)])) != 2:
            wrong.append("a missed aim of an older output counts")
        above = "<!-- bench missed -->\n<!-- end of bench missed -->\n"
        if "| get | 1 | to `slab` | 1.03 / 1.19 (0.9) |" not in written(above, document, outputs)[0]:
            wrong.append("the missed aim is not written")
        if written(above, document, [output_of(other)]) != (above, ["missed"]):
            wrong.append("a file without aims changes the missed ones")
        try:
            written(DOCUMENT.replace("| get | 2 | 9", "| get | 1 | 9 | 1 / 2 |\n| put | 2 | 9"), document, outputs)
            wrong.append("a missing row is not found")
        except Fault:
            pass
    print(*wrong, sep="\n", end="\n" if wrong else "")
    print(f"tables: {len(wrong)} faults")
    return 1 if wrong else 0


def main(words):
    if words == ["--self-test"]:
        return self_test()
    options = [word for word in words if word.startswith("-")]
    if options not in (["--write"], ["--missed"]):
        print(__doc__, file=sys.stderr)
        return 2
    at = words.index(options[0])
    try:
        outputs = [output_of(pathlib.Path(word)) for word in words[:at]]
        if options == ["--missed"]:
            for it in missed(outputs):
                print(f"{it.output.path.name}: {' | '.join(it.key)} | {it.column}: {it.cell}")
            return 0
        documents = [pathlib.Path(word) for word in words[at + 1:]]
        texts = [(document, *written(document.read_text(), document, outputs)) for document in documents]
    except (Fault, OSError) as why:
        print(f"tables: {why}", file=sys.stderr)
        return 1
    for document, text, kept in texts:
        document.write_text(text)
        for name in kept:
            print(f"tables: {document}: {name} stays as it is")
    return 0


sys.exit(main(sys.argv[1:]))
