"""Rounds: the wrong bodies of a crate that one check tries, and what the check said of them.

A check loads every crate below, so few rounds are quick. No two edits of a round change one function, except those that
are made in copies of it: the first such edit changes the function, and each further one a copy behind it, `NAME_copy_2`
and so on, with the same contract and with a copy of its hand-written answers.
"""
import re

from refusing.edits import FUNCTION, Function

# What a check says of a goal, of a function, and of a proof's file.
GOAL = re.compile(r"note: (src/\S+?):(\d+):\d+: (it is not proved .*)")
ENDED = re.compile(r"fn (\S+): (?:no proof|not proved)(.*)")
ERROR = re.compile(r"(?:\./)?proofs/(\S+)\.antt:\d+:\d+: error: (.*)")
UNREAD = re.compile(r"(?:\./)?((?:src|specs)/\S+?):(\d+):\d+: error")
# An error for a name that the edit took away: it says nothing of the contract.
LOST_NAME = re.compile(r"has no field|is not in scope|has no `|was not admitted")


class Round:
    """Edits that one check tries, and the crate that they make."""

    def __init__(self, crate, edits=()):
        self.crate, self.edits = crate, []
        self.searches_whole = any(it.searches_whole for it in edits)
        # (of each edit in a copy, the number of the copy; of each function, how many edits are its own or a copy's)
        self.copies, self.changed = {}, {}
        for edit in edits:
            self.add(edit)

    def add(self, edit):
        for key in edit.functions:
            self.changed[key] = self.changed.get(key, 0) + 1
            if self.changed[key] > 1:
                self.copies[edit] = self.changed[key]
        self.edits.append(edit)

    def has_room(self, edit):
        if edit.is_alone or edit.searches_whole != self.searches_whole:
            return False
        return not any(self.clashes(edit, other) for other in self.edits)

    def clashes(self, edit, other):
        if other.is_alone:
            return True
        if edit.functions.keys() & other.functions.keys():
            return not (edit.fits_a_copy(self.crate) and other.fits_a_copy(self.crate))
        return other.overlaps(edit)

    def made(self):
        """The files that the edits change, the copies of answers, and for each edit the functions that are wrong."""
        if len(self.edits) == 1:
            (edit,) = self.edits
            return edit.texts, [], {edit: list(edit.functions.values())}
        inserted = {}
        for edit in self.edits:
            for path, at, old, new in self.pairs(edit):
                inserted.setdefault(path, []).append((at, old, new))
        texts = {path: replaced(self.crate.text(path), pairs) for path, pairs in inserted.items()}
        wrong = {
            edit: [self.wrong_function(edit, it, inserted) for it in edit.functions.values()]
            for edit in self.edits
        }
        return texts, [it for edit in self.copies for it in self.folders(edit)], wrong

    def pairs(self, edit):
        """What replaces what, and where: in the function itself, or all of a copy behind the function."""
        if edit not in self.copies:
            return edit.replaced
        ((path, function),) = [(it.path, self.original(it)) for it in edit.functions.values()]
        own = [(at - function.head, old, new) for _, at, old, new in edit.replaced]
        body = replaced(self.crate.text(path)[function.head:function.end], own)
        copy = re.sub(rf"\bfn {function.name}\b", f"fn {self.name_of_copy(edit, function)}", body, count=1)
        return [(path, function.end, "", f"\n\n{copy}")]

    def name_of_copy(self, edit, function):
        return f"{function.name}_copy_{self.copies[edit]}"

    def paths(self, wrong):
        """The paths of the functions that the check has to try, or none if it has to check all of the crate."""
        if any(it.is_outside for it in self.edits):
            return [it.refused_by for it in self.edits if it.refused_by]
        return paths_of(it for its in wrong.values() for it in its)

    def folders(self, edit):
        """Each folder of a function's answers, that of its copy's, and the name of the one and the other in them."""
        (function,) = edit.functions.values()
        name = self.name_of_copy(edit, function)
        pairs = [(here, here.removesuffix(function.name) + name) for here in function.answers(self.crate)]
        return [(*pair, *(f"{it.replace('/', '.')}." for it in pair)) for pair in pairs]

    def original(self, function):
        """The function in the crate's own text. (An edit's texts are of one line each, so they move no rows.)"""
        text = self.crate.text(function.path)
        found = (Function(function.path, text, it) for it in FUNCTION.finditer(text))
        return next(it for it in found if it.key() == function.key())

    def wrong_function(self, edit, function, inserted):
        """The function with the wrong body, with the rows where it stands in the text that is checked."""
        own, rows = self.original(function), 0
        for at, _, new in inserted[own.path]:
            # (only copies add rows)
            rows += new.count("\n") if at < own.head else 0
        if edit not in self.copies:
            return function.moved(rows, function.name)
        # (the copies of a function stand behind it in the order of their numbers)
        own_rows = len(own.rows) + 1
        return function.moved(rows + own_rows * (self.copies[edit] - 1), self.name_of_copy(edit, function))


def replaced(text, pairs):
    """A text with each pair's old text replaced at its place. What is inserted at one place stays in its order."""
    parts, behind = [], 0
    for at, old, new in sorted(pairs, key=lambda it: it[0]):
        parts += [text[behind:at], new]
        behind = at + len(old)
    return "".join([*parts, text[behind:]])


def paths_of(functions):
    """The paths by which the prover finds these functions, or none if it has to check all of the crate."""
    paths = {it.path_in_crate() for it in functions}
    return sorted(paths) if all(paths) else []


def rounds_of(crate, edits):
    """The edits in rounds, each in the first that has room; what lies outside each function is alone."""
    rounds = []
    for edit in edits:
        room = next((it for it in rounds if it.has_room(edit)), None)
        if room is None:
            rounds.append(Round(crate, [edit]))
        else:
            room.add(edit)
    return rounds


class Said:
    """What a check said: whether the crate is proved, whether the prover came to it, and each goal that is open."""

    def __init__(self, ended, said):
        lines = said.rstrip("\n").split("\n")
        self.last = lines[-1]
        self.is_proved = ended == 0 and self.last.startswith(("logic=proved", "only="))
        self.unread = next((it for it in lines if UNREAD.match(it)), None)
        self.places_unread = [it.groups() for it in map(UNREAD.match, lines) if it]
        tells = self.last.startswith(("logic=not-proved", "only="))
        self.was_tried = self.is_proved or (ended == 1 and tells and not self.unread)
        # (a path that --only does not know, or knows twice)
        self.is_lost = ended == 2
        self.goals = [it.groups() for it in map(GOAL.match, lines) if it]
        self.ended = [(it[1].split("::")[1:], it[2]) for it in map(ENDED.match, lines) if it]
        self.errors = [(it[1].split("/"), it[2]) for it in map(ERROR.match, lines) if it]

    def has_an_error_in(self, wrong):
        return any(path == it.path and int(row) in it.rows for path, row in self.places_unread for it in wrong)

    def why_refused(self, edit, wrong):
        """The open goal of one of the functions that the edit makes wrong, or None."""
        for function in wrong:
            for path, row, why in self.goals:
                if path == function.path and int(row) in function.rows:
                    return f"{path}:{row}: {why}"
            for segments, why in self.ended:
                if function.is_named(segments) and "`search` did not prove" in why:
                    return "::".join(segments) + why.partition("; it calls")[0]
            for segments, why in self.errors:
                if function.is_named(segments[:-1]) and not LOST_NAME.search(why):
                    return f"proofs/{'/'.join(segments)}: {why}"
        return self.any_goal() if edit.is_outside else None

    def any_goal(self):
        """An open goal of whatever function, for an edit that changes what many use, or None."""
        goals = [f"{path}:{row}: {why}" for path, row, why in self.goals]
        goals += ["::".join(segments) + why for segments, why in self.ended if "`search` did not prove" in why]
        goals += [f"proofs/{'/'.join(at)}: {why}" for at, why in self.errors if not LOST_NAME.search(why)]
        return next(iter(goals), None)
