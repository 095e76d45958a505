"""The words of a run and the files that they name, as `docs/FORMATS.md` has them."""
import json
import re

from .answers import printed

START = (
    "A-Z_a-z\xc0-\xd6\xd8-\xf6\xf8-\u02ff\u0370-\u037d\u037f-\u1fff\u200c\u200d\u2070-\u218f\u2c00-\u2fef\u3001-\ud7ff\uf900-\ufdcf"
    "\ufdf0-\ufffd\U00010000-\U000effff"
)
NAME = f"[{START}][{START}0-9.\xb7\u0300-\u036f\u203f\u2040-]*"
JOINED = re.compile(f"{NAME}:{NAME}")


def texts(words):
    """The words as texts, or none where one is not UTF-8."""
    try:
        return [word.decode() for word in words]
    except UnicodeDecodeError:
        return None


def is_path(word):
    return word != "" and not word.startswith("-")


def ids_of(content):
    """The ids of the facts of a report, as they are printed."""
    try:
        report = json.loads(content.decode(), parse_int=str, parse_float=str)
    except (ValueError, RecursionError):
        return set()
    facts = report.get("facts") if isinstance(report, dict) else None
    return {printed(name) for name in facts} if isinstance(facts, dict) else set()


class Words:
    """What the words of a run say. `accepted` is none where one is not UTF-8.

    `files` has the name, the part (`certificate`, `report` or `doc`) and the bytes of each file of the words, in their order; the bytes
    are none where there is no such file.
    """

    def __init__(self, words, documents):
        self.command, self.mode, self.names, self.paths = None, None, [], []
        told = texts(words)
        self.accepted = None if told is None else self.accepts(told)
        self.files = [(name, part, documents.get(name)) for name, part in self.paths if self.accepted]
        self.ids = {each for _, part, content in self.files if part == "report" and content is not None for each in ids_of(content)}

    def accepts(self, told):
        """Whether words are accepted."""
        if not told or told[0] not in ("sum", "check", "verify"):
            return False
        self.command, *rest = told
        if rest[:1] == ["--old-arcs"] and self.command != "sum":
            rest = rest[1:]
        if rest[:1] not in (["rounding"], ["truncation"]):
            return False
        self.mode, *rest = rest
        return self.accepts_sum(rest) if self.command == "sum" else self.accepts_files(rest)

    def accepts_sum(self, rest):
        self.paths, self.names = [(name, "report") for name in rest[:1]], rest[1:]
        plain = [self.names[0]] + [name[1:] for name in self.names[1:] if name[:1] in ("+", "-")] if self.names else []
        return len(rest) > 2 and is_path(rest[0]) and len(plain) == len(self.names) and all(map(JOINED.fullmatch, plain))

    def accepts_files(self, rest):
        parts = ["certificate", "report"] if self.command == "verify" else ["report"]
        parts += ["doc"] * (len(rest) - len(parts))
        self.paths = list(zip(rest, parts))
        return len(rest) >= len(parts) and parts[-1:] == ["doc"] and all(map(is_path, rest))
