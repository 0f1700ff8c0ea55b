"""Markdown and doc comments: what is code, what a tool generates, and the texts between."""
import re

from checks import said
from tree import TOP

FENCED = re.compile(r"^ {0,3}(```|~~~).*?^ {0,3}\1[^\n]*$", re.M | re.S)
CODE = re.compile(r"`([^`]*)`")
# A block that a tool generates, between two comments.
GENERATED = re.compile(r"^<!-- (?:counts|bench rows|bench missed|measured|instructions)\b[^\n]*-->\n"
                       r".*?^<!-- end of [^\n]*-->$", re.M | re.S)
# What begins a text of its own: an item of a list, or a quotation.
ITEM = re.compile(r"\s*(?:[-*+]|\d+[.)])\s+|\s*>\s?")
DOC = re.compile(r"(?:^[^\S\n]*//[/!](?!/)[^\n]*\n)+", re.M)
DOC_MARK = re.compile(r"^\s*//[/!] ?", re.M)


def git(*words):
    return said("git", *words).splitlines()


def tracked(*patterns):
    return [name for name in git("ls-files", *patterns) if (TOP / name).is_file()]


def blank(found):
    """As many empty lines as what was found has."""
    return "\n" * found[0].count("\n")


def paragraphs(text, first=1):
    """The texts of Markdown, each with the number of its first line: paragraphs and items, without code and tables."""
    begun, lines = 0, []
    for number, line in enumerate([*GENERATED.sub(blank, FENCED.sub(blank, text)).splitlines(), ""], first):
        stripped, item = line.strip(), ITEM.match(line)
        is_outside = not stripped or stripped.startswith(("|", "#", "<!--"))
        if lines and (is_outside or item):
            yield begun, " ".join(lines)
            lines = []
        # (an indented line that goes on with no text is code)
        if is_outside or not lines and not item and line.startswith("    "):
            continue
        begun = begun if lines else number
        lines.append(line[item.end():].strip() if item else stripped)


def texts(path):
    text = path.read_text()
    if path.suffix == ".md":
        yield from paragraphs(text)
        return
    for doc in DOC.finditer(text + "\n"):
        yield from paragraphs(DOC_MARK.sub("", doc[0]), text.count("\n", 0, doc.start()) + 1)


def table(head, rows):
    lines = ["| " + " | ".join(row) + " |" for row in [head, *rows]]
    return "\n".join([lines[0], "|---" * len(head) + "|", *lines[1:]])
