"""The files of a folder, and which of them a reference leads to."""
import os
from collections import namedtuple

from taxonomy.documents import Catalog
from taxonomy.names import Refused, address_of_file, common_end, file_name, path_of, plain, split_address

# A file that a reference leads to, by which address, and whether its name alone tells.
Found = namedtuple("Found", "path address is_guess")


class Missing(Exception):
    """Why a reference leads to no file."""


def files_below(top):
    """The paths of all files below a folder, in order; links to folders are not followed."""
    paths, folders = [], [top]
    while folders:
        try:
            for entry in os.scandir(folders.pop()):
                (folders if entry.is_dir(follow_symlinks=False) else paths).append(entry.path)
        except OSError:
            continue  # what it has is missing then
    return sorted(paths)


class Starts:
    """Texts by which others begin, each with its values."""

    def __init__(self):
        self.values = {}
        self.lengths = set()

    def add(self, start, value):
        self.values.setdefault(start, []).append(value)
        self.lengths.add(len(start))

    def of(self, text):
        """The values of the longest start of a text, each followed by the rest of the text."""
        for length in sorted(self.lengths, reverse=True):
            if text[:length] in self.values:
                return [value + text[length:] for value in self.values[text[:length]]]
        return []


class Folder:
    """The files of a folder, by name, and the addresses that its catalogs rewrite."""

    def __init__(self, word):
        self.word = word
        self.top = os.path.realpath(word)
        self.named = {}
        self.rewrites, self.origins = Starts(), Starts()
        self.found = {}
        for path in files_below(self.top):
            self.named.setdefault(file_name(path), []).append(path)

    def read_catalogs(self, tell):
        for path in self.named.get("catalog.xml", []):
            if file_name(os.path.dirname(path)) == "META-INF" and self.has(path) and os.path.isfile(path):
                try:
                    rewrites = Catalog(path).rewrites
                except Refused as why:
                    tell("refused", f"{plain(self.shown(path))}: {why}")
                    continue
                for start, prefix in rewrites:
                    self.rewrites.add(start, prefix)
                    self.origins.add(prefix, start)

    def has(self, path):
        """Whether a path stays inside the folder, links followed."""
        inside = os.path.join(self.top, "")
        return path.startswith(inside) and os.path.realpath(path).startswith(inside)

    def shown(self, path):
        """A path inside, as a word of the command."""
        inside = os.path.relpath(path, self.top)
        if self.word not in (".", "./"):
            return os.path.join(self.word, inside)
        return "./" + inside if inside.startswith("-") else inside

    def bases(self, path, address=None):
        """The addresses from which the references of a file count: that of its origin, where it is known, and its own."""
        own = address_of_file(path)
        known = self.origins.of(own)[:1] or ([address] if address and not address.startswith("file:") else [])
        return (*known, own)

    def places(self, address):
        """The paths that an address may mean, by itself or by the catalogs."""
        addresses = [address] if path_of(address) else self.rewrites.of(address)
        return [path for path in map(path_of, addresses) if path]

    def alike(self, address):
        """The files with the name of an address that have most of it at the end of their paths, and none by a catalog."""
        scheme, host, path = split_address(address)
        parts = [host, *path.strip("/").split("/")]
        paths = self.named.get(parts[-1], []) if scheme in ("http", "https") else []
        paths = [one for one in paths if not self.origins.of(address_of_file(one))]
        counts = [common_end(parts, os.path.relpath(one, self.top).split("/")) for one in paths]
        most = max(counts, default=0)
        return [one for one, count in zip(paths, counts) if count == most]

    def find(self, addresses):
        """The file that one of these addresses leads to, the first first; raises Missing where none does."""
        if addresses not in self.found:
            self.found[addresses] = self.sought(addresses)
        found, why = self.found[addresses]
        if found is None:
            raise Missing(why)
        return found

    def sought(self, addresses):
        """The same, as that file or None, and why there is none."""
        why = "no file of the folder"
        for address in addresses:
            for path in self.places(address):
                if not self.has(path):
                    why = "it leaves the folder"
                elif os.path.isfile(path):
                    return Found(path, address, False), ""
        for address in addresses:
            paths = [] if self.places(address) else self.alike(address)
            if len(paths) > 1:
                why = "it may be any of " + ", ".join(plain(self.shown(path)) for path in paths)
            elif paths and self.has(paths[0]) and os.path.isfile(paths[0]):
                return Found(paths[0], address, True), ""
        return None, why
