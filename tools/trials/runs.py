"""One run in a sandbox, and what is asked of it."""
import os
import random
import resource
import shutil
import subprocess
import tempfile

from .answers import fault_of
from .changes import changed
from .words import Words

# A file that the program writes would pass this at once, and so would an output without end.
WRITTEN = 64_000_000


def bound(megabytes):
    """Bounds the memory of this process and of all that it starts. Without a number it is not bounded."""
    resource.setrlimit(resource.RLIMIT_CORE, (0, 0))
    resource.setrlimit(resource.RLIMIT_FSIZE, (WRITTEN, WRITTEN))
    if megabytes:
        resource.setrlimit(resource.RLIMIT_AS, (megabytes * 1_000_000,) * 2)


class Sandbox:
    """A program and the seconds that a run of it may take. Each run has a fresh folder, no input and no variables."""

    def __init__(self, program, seconds):
        self.program, self.seconds = program, seconds

    def run(self, words, folder):
        """The output, what is on standard error, and the status, or none where the run was ended."""
        try:
            done = subprocess.run(
                [self.program, *words], cwd=folder, env={}, stdin=subprocess.DEVNULL, capture_output=True, timeout=self.seconds
            )
        except subprocess.TimeoutExpired:
            return b"", b"", None
        return done.stdout, done.stderr, done.returncode


def write(folder, documents):
    """Writes documents, but for those whose name no file can have."""
    for name, content in documents.items():
        path = os.path.join(folder, name)
        os.makedirs(os.path.dirname(path), exist_ok=True)
        with open(path, "wb") as file:
            file.write(content)


def names_in(folder):
    """The paths in a folder and how long the files are."""
    found = []
    for place, _, names in os.walk(folder):
        found += [(os.path.join(place, name), os.path.getsize(os.path.join(place, name))) for name in names]
    return sorted(found)


class Trial:
    """The run of a seed: its words and documents, what it wrote, and what of that falls short."""

    def __init__(self, seed, scenes):
        self.seed = seed
        self.scene, self.told = changed(random.Random(seed), scenes)
        self.output = self.status = None
        self.asked = []

    def shortfall(self, sandbox):
        """What falls short of the rules, or none."""
        folder = tempfile.mkdtemp()
        try:
            write(folder, self.scene.documents)
            return self.ask(sandbox, folder)
        finally:
            shutil.rmtree(folder)

    def ask(self, sandbox, folder):
        before, words = names_in(folder), Words(self.scene.words, self.scene.documents)
        self.output, error, self.status = sandbox.run(self.scene.words, folder)
        if self.status is None:
            return f"no end in {sandbox.seconds} s"
        if self.status < 0:
            return f"ended by the signal {-self.status}"
        if error:
            return f"on standard error {error[:300]!r}"
        if fault := fault_of(self.output, self.status, words):
            return fault
        if sandbox.run(self.scene.words, folder) != (self.output, error, self.status):
            return "another answer the second time"
        if names_in(folder) != before:
            return "files that are not as they were"
        return self.ask_again(sandbox, folder)

    def ask_again(self, sandbox, folder):
        """What `check` certified is accepted, and what is accepted is not the contrary of what `check` certified."""
        words, head = self.scene.words, self.output.split(b"\n", 1)[0]
        if words and words[0] == b"check" and b"\ncertificate 1\n" in self.output:
            return self.ask_verify(sandbox, folder)
        if words and words[0] == b"verify" and head.startswith(b"accepted "):
            return self.ask_check(sandbox, folder, head)
        return None

    def ask_verify(self, sandbox, folder):
        words = self.scene.words
        at = 2 + (words[1] == b"--old-arcs")
        write(folder, {"@certificate": self.output})
        kind = b"infeasible" if b"\njoint infeasible\n" in self.output else b"feasible"
        got = sandbox.run([b"verify", *words[1:at], b"@certificate", *words[at:]], folder)
        self.asked.append("verify")
        return None if got == (b"accepted " + kind + b"\n", b"", 0) else f"a certificate that `verify` answers with {got[0][:300]!r}, {got[2]}"

    def ask_check(self, sandbox, folder, head):
        words = self.scene.words
        at = 2 + (words[1] == b"--old-arcs")
        output, _, status = sandbox.run([b"check", *words[1:at], *words[at + 1 :]], folder)
        self.asked.append("check")
        contrary = b"joint feasible" if head == b"accepted infeasible" else b"joint infeasible"
        if status is None or contrary in output.split(b"\n"):
            return f"{head.decode()} where `check` says {contrary.decode()}"
        return None
