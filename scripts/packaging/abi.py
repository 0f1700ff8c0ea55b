"""What programs that were linked with the library rely on: as the header has it, and as library/abi.txt stores it."""
import pathlib
import re
import subprocess
import tempfile

from record import TOP
from checks import written

STORED = TOP / "library/abi.txt"
# The headers, each of which includes those before it.
HEADERS = [TOP / "library/include/shardheap.h", TOP / "library/include/shardheap_table.h"]
STRUCT = re.compile(r"^typedef struct (\w+) \{\n(.*?)^\} \1;", re.M | re.S)
FIELD = re.compile(r"^ +(?:const )?\w+ \*?(\w+)(?:\[\d+\])?;", re.M)
NUMBER = re.compile(r"^ +(SHARDHEAP_\w+) = \d+", re.M)
CALL = re.compile(r"^(?:SHARDHEAP_API )?((?:const char \*|\w+ )shardheap_\w+\([^)]*\))(?:;| \{$)", re.M)


def version():
    return re.search(r'(?m)^version = "(.*)"$', (TOP / "library/rust/Cargo.toml").read_text())[1]


def text_of(headers):
    return "".join(it.read_text() for it in headers)


def calls(headers):
    """The calls that the library exports, each in one line with the types of what it returns and takes."""
    found = [" ".join(it.split()) for it in CALL.findall(text_of(headers))]
    return [re.sub(r" ?\b\w+(?=[,)])", "", it) if not it.endswith("(void)") else it for it in found]


def name_of(call):
    return re.search(r"(shardheap_\w+)\(", call)[1]


def asked(headers):
    text, prints = text_of(headers), []
    for struct, body in STRUCT.findall(text):
        prints.append(f'printf("size {struct} %zu, aligned to %zu\\n", sizeof({struct}), _Alignof({struct}));')
        for field in FIELD.findall(body):
            prints.append(f'printf("offset {struct}.{field} %zu, size %zu\\n", offsetof({struct}, {field}), '
                          f"sizeof((({struct} *)0)->{field}));")
    prints += [f'printf("number {it} %d\\n", (int){it});' for it in NUMBER.findall(text)]
    includes = [f'#include "{it}"' for it in headers]
    return "\n".join([*includes, "#include <stdio.h>", "int main(void) {", *prints, "}\n"])


def measured(headers):
    """The lines of the headers, in their order. A call has no version."""
    with tempfile.TemporaryDirectory(prefix="abi-") as room:
        program = pathlib.Path(room) / "asked"
        subprocess.run(["gcc", "-std=c11", "-w", "-x", "c", "-", "-o", program], input=asked(headers), text=True,
                       check=True)
        return written(program).splitlines() + [f"call {it}" for it in calls(headers)]


def lines():
    return [it for it in STORED.read_text().splitlines() if it and not it.startswith("#")] if STORED.exists() else []


def stored():
    return [re.sub(r"^call (.*), since [\d.]+$", r"call \1", it) for it in lines()]


def since():
    found = [re.match(r"call (.*), since ([\d.]+)$", it) for it in lines()]
    return {name_of(it[1]): it[2] for it in found if it}


def add(new):
    with open(STORED, "a", encoding="utf-8") as file:
        file.writelines(f"{it}, since {version()}\n" if it.startswith("call ") else f"{it}\n" for it in new)
