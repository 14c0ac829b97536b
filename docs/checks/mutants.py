"""Mutants: what they replace is there."""
import os

from sources import TOP, files_below, text_of


def mutants():
    """The text that a mutant replaces is in its file, once."""
    for path in (*files_below("crates", ".edit"), *files_below("tests/mutants", ".edit")):
        crate = path.split("/")[2 if path.startswith("tests/") else 1]
        file, old, texts, pairs = "", "", {}, 0
        for line in text_of(path).splitlines():
            key, _, rest = line.partition(": ")
            if key == "file":
                file = f"crates/{crate}/{rest}"
            elif key == "old":
                old = rest
            elif line.startswith("new:"):
                pairs += 1
                if not os.path.isfile(os.path.join(TOP, file)):
                    yield f"{path}: no file {file}"
                    continue
                text = texts.get(file) or text_of(file)
                if text.count(old) != 1:
                    yield f"{path}: {file} has {text.count(old)} times {old.strip()}"
                texts[file] = text.replace(old, line[len("new:") :].removeprefix(" "))
        if not pairs:
            yield f"{path}: no old and new text"
