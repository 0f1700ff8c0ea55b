"""Rows: runs of programs, each with what must come out of it."""
import contextlib
import dataclasses
import os
import pathlib
import resource
import subprocess
import tempfile
import typing

from tree import program


class Unbuilt(SystemExit):
    """A program that is not there. The text says so."""


@dataclasses.dataclass
class Row:
    """A run: its program, the arguments, the input, and what must come out.

    Of the output and the error a text has to be what is written, and a function yields what is wrong with that. None
    takes anything.
    """
    program: str
    words: typing.Sequence = ()
    given: str | bytes | pathlib.Path = b""
    status: int = 0
    output: typing.Any = None
    error: typing.Any = None
    # (what is said of it, in place of the program and its arguments)
    name: str = ""
    seconds: float = 60
    # limits of the system, as {resource.RLIMIT_AS: 1 << 20}
    limits: dict = dataclasses.field(default_factory=dict)
    # files that take the output and the errors, and variables of the environment
    to: str = ""
    errors_to: str = ""
    variables: dict = dataclasses.field(default_factory=dict)

    def called(self):
        return self.name or " ".join(map(str, [self.program, *self.words]))


class Ran(typing.NamedTuple):
    """What came of a run. The status is None if it had not ended in time."""
    status: int | None
    output: bytes
    error: bytes
    # seconds of the processor, how often its threads gave up their processor, and how many bytes of the input it read
    spent: float
    switches: int
    read: int

    def text(self):
        return self.output.decode(errors="replace")

    def lines(self):
        return self.text().splitlines()


def in_bytes(text):
    return text.encode() if isinstance(text, str) else text


def run(row):
    path = pathlib.Path(row.program) if "/" in str(row.program) else program(row.program)
    if not os.access(path, os.X_OK):
        raise Unbuilt(f"{path} is not built: rt run in its crate builds it")

    def limit():
        for which, most in row.limits.items():
            resource.setrlimit(which, (most, resource.getrlimit(which)[1]))

    before = resource.getrusage(resource.RUSAGE_CHILDREN)
    with contextlib.ExitStack() as stack:
        given, output, error = (stack.enter_context(tempfile.TemporaryFile()) for _ in range(3))
        if isinstance(row.given, pathlib.Path):
            given = os.open(row.given, os.O_RDONLY)
            stack.callback(os.close, given)
        else:
            given.write(in_bytes(row.given))
            given.seek(0)
            given = given.fileno()
        to, errors_to = (stack.enter_context(open(it, "wb")) if it else None for it in (row.to, row.errors_to))
        words = [path, *map(str, row.words)]
        try:
            status = subprocess.run(words, stdin=given, stdout=to or output, stderr=errors_to or error,
                                    timeout=row.seconds, env={**os.environ, **row.variables},
                                    preexec_fn=limit if row.limits else None).returncode
        except subprocess.TimeoutExpired:
            status = None
        read = os.lseek(given, 0, os.SEEK_CUR)
        for file in (output, error):
            file.seek(0)
        output, error = output.read(), error.read()
    after = resource.getrusage(resource.RUSAGE_CHILDREN)
    spent = after.ru_utime + after.ru_stime - before.ru_utime - before.ru_stime
    return Ran(status, output, error, spent, after.ru_nvcsw - before.ru_nvcsw, read)


def difference(what, wanted, found):
    wanted, found = in_bytes(wanted).split(b"\n"), found.split(b"\n")
    at = next((at for at, (one, other) in enumerate(zip(wanted, found)) if one != other), min(len(wanted), len(found)))
    lines = [repr(it[at].decode(errors="replace"))[:200] if at < len(it) else "no line" for it in (found, wanted)]
    return f"the {what} has in line {at + 1} {lines[0]}, and should have {lines[1]}"


def faults(row, ran):
    if ran.status != row.status:
        how = f"no end within {row.seconds:.0f} s" if ran.status is None else f"status {ran.status}"
        yield f"{how} in place of status {row.status}; {ran.error[-300:].decode(errors='replace').strip()}"
        return
    for what, wanted, found in (("output", row.output, ran.output), ("error", row.error, ran.error)):
        if callable(wanted):
            yield from wanted(found.decode(errors="replace"))
        elif wanted is not None and in_bytes(wanted) != found:
            yield difference(what, wanted, found)


def judged(rows):
    """Runs the rows of a generator, to which it sends what came of each; a text among them is a fault of its own.
    Returns how many rows there were, and the faults."""
    count, found, ran = 0, [], None
    with contextlib.suppress(StopIteration):
        while True:
            row = rows.send(ran)
            if isinstance(row, str):
                found.append(row)
                ran = None
                continue
            ran = run(row)
            count += 1
            found += [f"{row.called()}: {fault}" for fault in faults(row, ran)]
    return count, found


def planted():
    """Rows with one fault each, and what has to be said of it."""
    def shell(text, **more):
        return Row("/bin/sh", ["-c", text], name="sh", **more)

    yield shell("exit 3"), "status 3 in place of status 0"
    yield shell("kill -9 $$"), "status -9 in place of status 0"
    yield shell("exit 0", status=2), "status 0 in place of status 2"
    yield shell("sleep 9", seconds=0.1), "no end within 0 s"
    yield shell("cat", given="a\nb\n", output="a\nc\n"), "the output has in line 2 'b', and should have 'c'"
    yield shell("echo a", output="a\nb\n"), "the output has in line 2 '', and should have 'b'"
    yield shell("echo a", output=""), "the output has in line 1 'a', and should have ''"
    yield shell("echo a >&2", error="b\n"), "the error has in line 1 'a', and should have 'b'"
    yield shell("echo 7", output=lambda text: [f"it is {text.strip()}"]), "it is 7"
    yield shell("while :; do :; done", limits={resource.RLIMIT_CPU: 1}), "status -24 in place of status 0"
    yield shell("echo a", to="/dev/full"), " in place of status 0"
    yield shell("echo a >&2", errors_to="/dev/full"), " in place of status 0"
    yield shell("cat", given=pathlib.Path("/")), " in place of status 0"


def self_test():
    missed = 0
    for row, said in planted():
        count, found = judged(it for it in [row])
        if count != 1 or len(found) != 1 or said not in found[0]:
            missed += 1
            print(f"program-checks: {said!r} is not found: {found}")
    count, found = judged(it for it in ["a fault of its own", Row("/bin/sh", ["-c", "echo a"], output="a\n")])
    missed += (count, found) != (1, ["a fault of its own"])
    print(f"program-checks: {len(list(planted()))} planted faults, {missed} not as they should be")
    return missed == 0
