"""How checks run commands, tell what they find, and are tried themselves."""
import pathlib
import subprocess
import tempfile

import tree


def written(*words):
    """What a command writes to the standard output. It has to succeed."""
    return subprocess.run(words, cwd=tree.TOP, capture_output=True, text=True, check=True).stdout


def said(*words):
    """The same without its line end, and nothing if the command is missing or fails."""
    try:
        return written(*words).strip()
    except (OSError, subprocess.CalledProcessError):
        return ""


def told(name, faults, looked_at):
    """Prints the faults, and how many there are. Returns whether there is none."""
    print(*faults, sep="\n", end="\n" * bool(faults))
    print(f"{name}: {looked_at}, {len(faults)} faults", flush=True)
    return not faults


def tried(name, planted, clean, faults_of):
    """Whether each planted file has just one fault, and each clean one none. Both are texts by the names of files."""
    wrong = []
    with tempfile.TemporaryDirectory() as room:
        for file, text in (planted | clean).items():
            path = pathlib.Path(room) / file
            path.write_text(text)
            found = list(faults_of(path))
            if len(found) != (file in planted):
                wrong.append(f"{name}: {file}: {found}")
    return told(f"{name}, tried", wrong, f"{len(planted)} planted faults")
