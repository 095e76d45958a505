"""The documents from which the runs are made: those of the examples, and those of the cases of the program's tests."""
import os
import shlex
import sys

TOP = os.path.dirname(os.path.dirname(os.path.dirname(os.path.abspath(__file__))))
EXAMPLES = os.path.join(TOP, "examples")
CASES = os.path.join(TOP, "tests/cases")
MOST = 100_000  # bytes of a document; what is greater is left out

sys.path.insert(0, os.path.join(TOP, "tests"))
from made import cases  # noqa: E402


class Scene:
    """The words of a run, and its documents by their names."""

    def __init__(self, words, documents):
        self.words, self.documents = words, documents

    def copy(self):
        return Scene(list(self.words), dict(self.documents))


def read(path):
    with open(path, "rb") as file:
        return file.read()


def documents_of(folder):
    """The documents of a folder, by their paths in it."""
    found = {}
    for place, _, names in os.walk(folder):
        for name in names:
            path = os.path.join(place, name)
            found[os.path.relpath(path, folder)] = read(path)
    return found


def examples():
    """The examples, without those whose documents are made for them. One that writes a certificate gives `verify` of it too."""
    for name in sorted(os.listdir(EXAMPLES)):
        folder = os.path.join(EXAMPLES, name)
        if not os.path.isfile(os.path.join(folder, "words")):
            continue
        documents = documents_of(folder)
        words = documents.pop("words").splitlines()
        output = documents.pop("stdout")
        del documents["status"]
        if not any(word.startswith(b"@") for word in words):
            yield Scene(words, documents)
            yield from verified(words, documents, output)


def verified(words, documents, output):
    """The run of `verify` over what `check` wrote, where there is a certificate in it."""
    if words[0] == b"check" and b"\ncertificate 1\n" in output:
        at = 1 + next(n for n, word in enumerate(words) if word in (b"rounding", b"truncation"))
        yield Scene([b"verify"] + words[1:at] + [b"@output"] + words[at:], {**documents, "@output": output})


def of_cases():
    """The cases."""
    for subject in sorted(os.listdir(CASES)):
        for said, documents in cases(os.path.join(CASES, subject)):
            words = [word.encode() for word in shlex.split(said["words"][0])]
            yield Scene(words, documents)
            if "out" in said:
                yield from verified(words, documents, "".join(line + "\n" for line in said["out"][1]).encode())


def scenes():
    """All of them."""
    return [scene for each in (examples, of_cases) for scene in each() if sum(map(len, scene.documents.values())) < MOST]
