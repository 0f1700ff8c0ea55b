"""Names and statements of lemmas, and addresses of modules, that a crate, or the tree, has twice, by what specs/ and
proofs/ declare.

Lines `pub use` of a Lib.antt for a module of another crate: a definition is imported from the file that declares it.

Names that mean two things in one crate:

- a definition (abbrev, record, data, unfoldable) or a public lemma that has the name of another definition or lemma of
  its crate: each of these is a fault;
- private lemmas of two files or more that have one name: over all crates there may be MOST such names.

Statements that occur twice among the lemmas of all crates' proofs, except those of KNOWN. Two statements are the same
if they differ only in the names of variables, in which of them are implicit, and in how they are written out. A name
stands for where it is declared, and one of the toolchain for itself. A lemma in a block `module _` has the variables of
the block if its statement names one of them. Definitions do not count, nor does what is local to a `where` or a `let`,
nor fields of records, nor the answers to goals.
"""
import collections
import functools
import re

from checks import told
from tree import CRATES

MOST = 20
# the crate that names what users of the heap cite
PUBLIC = "gearlongan"
# the files that answer goals, and the one that lists the others
SKIPPED = {"Answers.antt", "Invariants.antt", "Proof.antt", "Given.antt", "Lib.antt"}
# Lemmas whose statement another lemma has too, and why. A row that is not needed is a fault too.
KNOWN = {
    # copies in two crates of which neither is below the other
    "sh_plain/Holds:found_none": "sh_key and sh_value are below both, and neither compares numbers",
    "tool_load/ArgumentLemmas:is_local": "only clap is below both, which has the types",
}

NAME = r"[^\s(){};,]+"
USE = re.compile(r"(pub )?use ([^\s{]+?)(?:\.\{([^}]*)\}| as (\S+))?")
BLOCK = re.compile(r"module\b(.*)\bwhere")
RECORD = re.compile(rf"(?:pub )?(?:record|data) (?:pub )?({NAME})")
SIGNATURE = re.compile(rf"((?:(?:abbrev|unfoldable|pub) )*)({NAME})(?: ?\{{[^}}]*\}})* ?: (.*)")
WORD = re.compile(r"\.[^\s(){},;.]+|[(){},;.]|[^\s(){},;.]+")
BRACKETS = {"{": "(", "}": ")"}

Declared = collections.namedtuple("Declared", "name kind file")
# `variables` are those of the blocks around it
Lemma = collections.namedtuple("Lemma", "name variables statement")


def items(text):
    """What is at the top of a file or directly in a block `module _`, each as a line, after the variables of its
    blocks."""
    levels, variables, item, begins = [0], [""], "", False
    for line in text.split("\n"):
        line = re.sub(r"(^|\s)--(\s.*)?$", "", line).rstrip()
        if not line:
            continue
        indent = len(line) - len(line.lstrip())
        if begins:
            # (the first line of a block, which says how far all of it is indented)
            levels.append(indent)
            begins = False
        if indent <= levels[-1]:
            yield item, variables[-1]
            item = ""
            while indent < levels[-1]:
                levels.pop()
                variables.pop()
        item = f"{item} {line.strip()}".strip()
        block = BLOCK.fullmatch(item)
        if block:
            variables.append(f"{variables[-1]} {block[1].replace(' _ ', ' ', 1).strip()}".strip())
            item, begins = "", True
    yield item, variables[-1]


class File:
    """What a file declares, with the kind of each name, and from where it has its other names."""

    def __init__(self, path):
        self.names, self.passed_on, self.lemmas, self.declared = {}, {}, [], []
        where = ".".join(("Rattle", *path.relative_to(CRATES).with_suffix("").parts))
        for item, variables in items(path.read_text()):
            used, record, signature = USE.fullmatch(item), RECORD.match(item), SIGNATURE.match(item)
            if used:
                self.take(*used.groups())
            elif record:
                self.declare(record[1], "definition", where)
            elif signature and signature[2] not in ("use", "module", "open"):
                words, name = set(signature[1].split()), signature[2]
                is_lemma = not {"abbrev", "unfoldable"} & words
                self.declare(name, ("public" if words else "private") if is_lemma else "definition", where)
                if is_lemma:
                    self.lemmas.append(Lemma(name, variables, signature[3]))

    def declare(self, name, kind, where):
        self.names[name] = f"{where}.{name}"
        self.declared.append((name, kind))

    def take(self, public, module, names, alias):
        pairs = [(module.split(".")[-1] if not alias else alias, module)]
        if names:
            pairs = []
            for one in names.split(","):
                name, _, other = one.strip().partition(" as ")
                pairs.append((other or name, f"{module}.{name}"))
        for name, source in pairs:
            self.names[name] = source
            if public:
                self.passed_on[name] = source


@functools.cache
def file(path):
    return File(path)


@functools.cache
def declared_at(source):
    """Where a name is declared that a line `use` has from `source`: the file there may pass on another's. What is the
    toolchain's is its last part."""
    parts = source.split(".")
    if parts[0] != "Rattle" or not (CRATES / parts[1]).is_dir():
        return parts[-1]
    module = CRATES.joinpath(*parts[1:-1]).with_suffix(".antt")
    if module.is_file() and parts[-1] in file(module).passed_on:
        return declared_at(file(module).passed_on[parts[-1]])
    return source


def apart(words):
    """The words with each variable in round brackets of its own, and an arrow after it."""
    out, at, n = [], 0, len(words)
    while at < n:
        word = words[at]
        if word == "(" or word == "{":
            colon = at + 1
            while words[colon] not in "(){},;:→" and words[colon][0] != ".":
                colon += 1
            if words[colon] == ":" and colon > at + 1:
                depth, end = 1, colon
                while depth:
                    end += 1
                    depth += (words[end] in "({") - (words[end] in ")}")
                kind = apart(words[colon + 1:end])
                for name in words[at + 1:colon]:
                    if out and out[-1] == ")":
                        out.append("→")
                    out += ["(", name, ":", *kind, ")"]
                at = end + 1
                continue
        out.append(BRACKETS.get(word, word))
        at += 1
    return out


def parts(words):
    depth, out = 0, [[]]
    for word in words:
        depth += (word == "(") - (word == ")")
        if word == "→" and not depth:
            out.append([])
        else:
            out[-1].append(word)
    return out


def variable(part):
    return part[1] if part[0] == "(" and part[2:3] == [":"] and part[-1] == ")" else None


def form(lemma, names):
    """The statement of a lemma of a file with these names, in the one form for all ways in which it can be written."""
    said = parts(apart(WORD.findall(lemma.statement)))
    around = parts(apart(WORD.findall(lemma.variables))) if lemma.variables else []
    if any(variable(part) in other for part in around for other in said):
        said = around + said
    uses = collections.Counter(word for part in said for word in part)
    for i, part in enumerate(said[:-1]):
        if variable(part) and uses[variable(part)] == 1:
            said[i] = part[3:-1] if "→" not in part else ["(", *part[3:-1], ")"]
    numbers, out = {}, []
    words = [word for part in said for word in (*part, "→")][:-1]
    for i, word in enumerate(words):
        if word == ":" and words[i - 2] == "(":
            numbers.setdefault(words[i - 1], f"#{len(numbers)}")
        elif word == "λ":
            for name in words[i + 1:words.index(".", i)]:
                if words[i + 1] != "(":
                    numbers.setdefault(name, f"#{len(numbers)}")
    for word in words:
        if word in numbers:
            out.append(numbers[word])
        elif word[0] == "." and len(word) > 1:
            out[-1] += word
        else:
            out.append(declared_at(names[word]) if word in names else word)
    return " ".join(out)


def statements():
    by_form = collections.defaultdict(list)
    for path in sorted(CRATES.glob("*/proofs/**/*.antt")):
        if path.name not in SKIPPED:
            place = path.relative_to(CRATES).with_suffix("").as_posix().replace("/proofs/", "/")
            for lemma in file(path).lemmas:
                by_form[form(lemma, file(path).names)].append(f"{place}:{lemma.name}")
    # (one word is the type of a value)
    return {stated: lemmas for stated, lemmas in by_form.items() if " " in stated}


def declared(crate):
    for part in ("specs", "proofs"):
        for path in sorted((CRATES / crate / part).rglob("*.antt")):
            for name, kind in file(path).declared if path.name not in SKIPPED else ():
                # (that a struct may be sent or shared is proved under such a name)
                if path.parent.name != "TheSendSync" or name != path.stem.lower():
                    yield Declared(name, kind, str(path.relative_to(CRATES / crate)))


def doubled(crate):
    """The names of a crate that mean two things, each with whether that is a fault, and its files."""
    by_name = collections.defaultdict(list)
    for one in declared(crate):
        by_name[one.name].append(one)
    for name, all_so in sorted(by_name.items()):
        files = sorted({one.file for one in all_so})
        fault = len(all_so) > 1 and any(one.kind != "private" for one in all_so)
        if fault or len(files) > 1:
            yield fault, f"{crate}: {'' if fault else 'private: '}{name}: {' '.join(files)}"


def names(shows):
    """Whether no name means two things, and few are of two private lemmas, which are printed if they are too many."""
    crates = sorted(path.name for path in CRATES.iterdir() if path.is_dir())
    found = [it for crate in crates for it in doubled(crate)]
    private = [text for is_fault, text in found if not is_fault]
    if shows or len(private) > MOST:
        print(*private, sep="\n")
    faults = [text for is_fault, text in found if is_fault]
    is_well = told("same names", faults, f"{len(private)} names of private lemmas (at most {MOST})")
    return is_well and len(private) <= MOST


def same_statements(shows):
    """Whether no statement occurs twice, except those of KNOWN, and each of those does."""
    twice = [sorted(lemmas) for lemmas in statements().values() if len(lemmas) > 1]
    faults = [" ".join(lemmas) for lemmas in twice if len(set(lemmas) - set(KNOWN)) > 1]
    known = [" ".join(lemmas) for lemmas in twice if " ".join(lemmas) not in faults]
    faults += [f"KNOWN has {it}, whose statement no other lemma has"
               for it in sorted(set(KNOWN) - {lemma for lemmas in twice for lemma in lemmas})]
    if shows:
        print(*(f"known: {it}" for it in known), sep="\n")
    return told("same statements", faults, f"{len(known)} known")


def second_addresses():
    """Whether each module has one address: a Lib.antt passes on no module of another crate. The crate of PUBLIC may."""
    roots, faults = sorted(CRATES.glob("*/*/Lib.antt")), []
    for root in roots:
        crate = root.relative_to(CRATES).parts[0]
        faults += [f"{root.relative_to(CRATES)}: {source} is another crate's" for source in file(root).passed_on.values()
                   if source.split(".")[1] != crate != PUBLIC]
    return told("addresses of modules", faults, f"{len(roots)} files")


def check(shows=False):
    return names(shows) & same_statements(shows) & second_addresses()
