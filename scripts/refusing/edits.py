"""The functions of a source file, and the edits that change them: a wrong body each."""
import copy
import re

from tree import PARTS

FUNCTION = re.compile(r"(?m)^( *)(?:pub(?:\([a-z]+\))? )?(?:const )?(?:extern \S+ )?fn (\w+)")
OWNER = re.compile(r"(?m)^(?:unsafe )?(?:pub )?(?:impl|trait)\b(.*)$")


class Function:
    """A function of a source file: its name, the type or trait whose it is, and the rows where it stands."""

    def __init__(self, path, text, found):
        self.path, self.name, self.indent = path, found[2], found[1]
        self.start = found.start()
        ended = re.compile(rf"(?m)^{self.indent}\}}").search(text, found.end())
        self.end = ended.end() if ended else len(text)
        above = text[:self.start].split("\n")[:-1]
        while above and above[-1].lstrip().startswith(("#[", "//")):
            above.pop()
        # (the prover places a goal of the whole function at its first attribute)
        self.rows = range(len(above) + 1, text.count("\n", 0, self.end) + 2)
        self.head = sum(len(line) + 1 for line in above)
        owners = [it for it in OWNER.finditer(text, 0, self.start)] if self.indent else []
        # (the words of the head, as `Member`, `Side`: the prover's name of an impl is made of some of them)
        self.owners = set(re.findall(r"[A-Z]\w+", owners[-1][1])) if owners else set()
        # (`impl Part`, `impl PassOn<L, H>`: of an impl of a trait the prover makes another name)
        head = re.sub(r"<[^<>]*>", "", re.sub(r"<[^<>]*>", "", owners[-1][1])).split() if owners else []
        self.type = head[0].rstrip("{") if head and "for" not in head else None
        # (a trait and its impls have each function once, so a second one beside it would be another function)
        self.is_of_trait = bool(self.owners) and (not self.type or "trait" in owners[-1][0].split())
        module = path.removeprefix("src/").removesuffix(".rt")
        self.module = [] if module in ("lib", "main") else module.split("/")

    def key(self):
        return self.path, self.rows.start

    def path_in_crate(self):
        """A path by which the prover finds it: with its module, with its type, or that of its module; empty if none."""
        if not self.owners:
            return "::".join([*self.module, self.name])
        return f"{self.type}::{self.name}" if self.type else "::".join(self.module)

    def moved(self, rows, name):
        other = copy.copy(self)
        other.name, other.rows = name, range(self.rows.start + rows, self.rows.stop + rows)
        return other

    def answers(self, crate):
        """The folders of its hand-written answers: one or none. Those of a method are in the module of its type."""
        proofs = crate.folder / "proofs"
        found = proofs.rglob(f"{self.type}/{self.name}") if self.owners else [proofs.joinpath(*self.module, self.name)]
        return [it.relative_to(crate.folder).as_posix() for it in found if it.is_dir()]

    def is_named(self, segments):
        """Whether the prover's path of a function, as ["owner", "Owner", "follow"], is this one's."""
        if not segments or self.name not in segments[1 if self.owners else 0:]:
            return False
        at = len(segments) - 1 - segments[::-1].index(self.name)
        above = segments[:at]
        if not self.owners:
            return above == self.module
        return bool(above) and any(it in above[-1] for it in self.owners)


def function_at(path, text, place):
    """The function in whose text a place lies, what stands right above it included, or None."""
    functions = (Function(path, text, found) for found in FUNCTION.finditer(text))
    around = [it for it in functions if it.head <= place < it.end]
    return around[-1] if around else None


class Edit:
    """An edit of a crate's sources: what it replaces, and the functions that it changes."""

    def __init__(self, file, crate):
        self.file, self.name, self.is_control = file, file.stem, file.suffix == ".control"
        self.replaced, self.functions, self.bad = [], {}, None
        # (what is outside each function is many functions' own, and has a round of its own; so has a pair of texts
        # that rests on an earlier one of its edit, which is not in the file)
        self.is_outside, self.is_alone = False, False
        # (the path of the function by whose goal an edit outside each function is refused, if the file says it)
        self.refused_by = None
        # (whether the prover's searches take all their steps, and not half of them. An edit outside each function is
        # refused by a goal of any function, so a right one must not fail for want of steps.)
        self.searches_whole = False
        path = old = None
        self.texts = {}
        for line in file.read_text().split("\n"):
            word, _, rest = line.partition(":")
            match word:
                case "file":
                    path = rest.strip()
                case "refused by":
                    self.refused_by = rest.strip()
                case "searches":
                    self.searches_whole = rest.strip() == "whole"
                case "old":
                    old = rest.removeprefix(" ")
                case "new" if path and old:
                    self.replace(crate, path, old, rest.removeprefix(" "))
        self.searches_whole |= self.is_outside
        if not self.replaced and not self.bad:
            self.bad = "it has no pair of old: and new:"
        if self.refused_by and not self.is_outside:
            self.bad = "it changes a function, so no line has to say which function refuses it"

    def replace(self, crate, path, old, new):
        if not path.startswith(tuple(f"{it}/" for it in PARTS)) or not (crate.folder / path).is_file():
            self.bad = f"there is no file {path}"
            return
        text = self.texts.get(path) or crate.text(path)
        if text.count(old) != 1:
            self.bad = f"an old: text is in {path} {text.count(old)} times, and not once"
            return
        self.texts[path] = text.replace(old, new)
        self.replaced.append((path, crate.text(path).find(old), old, new))
        function = function_at(path, text, text.find(old)) if path.startswith("src/") else None
        self.is_outside |= function is None
        self.is_alone |= self.is_outside or crate.text(path).count(old) != 1
        if function:
            self.functions[function.key()] = function

    def undone(self):
        other = copy.copy(self)
        other.replaced, other.texts = [(path, at, old, old) for path, at, old, _ in self.replaced], {}
        return other

    def fits_a_copy(self, crate):
        """Whether it can be made in a copy of the one function that it changes, with a copy of the answers."""
        if self.is_alone or len(self.functions) != 1:
            return False
        (function,) = self.functions.values()
        if function.is_of_trait:
            return False
        answers = function.answers(crate)
        module = crate.folder.joinpath("proofs", *function.module)
        # (answers in another place are of a function of the same name, or of this one under a name of its impl)
        return len(answers) == 1 or not any(module.rglob(function.name))

    def overlaps(self, other):
        return any(
            path == path2 and at < at2 + len(old2) and at2 < at + len(old)
            for path, at, old, _ in self.replaced
            for path2, at2, old2, _ in other.replaced
        )
