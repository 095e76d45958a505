"""Names of files, addresses, and texts for lines."""
import os
from urllib.parse import quote, unquote_to_bytes, urljoin, urlsplit

SPACE = " \t\r\n"


class Refused(Exception):
    """Why a file cannot be read."""


def plain(text):
    """A text for a line: what does not print is written as `%` and two hexadecimal digits for each byte."""
    return "".join(one if one.isprintable() else quote(bytes_of(one)) for one in text)


def bytes_of(one):
    """The bytes of a character; of one that stands for a byte of a file's name, that byte."""
    return one.encode("utf-8", "surrogateescape" if "\udc80" <= one <= "\udcff" else "surrogatepass")


def file_name(path):
    """What stands behind the last slash, by which `check` finds a schema."""
    return path.rpartition("/")[2]


def joined(base, reference):
    """The address that a reference means from a base; empty where it is none."""
    if any(one < " " or one == "\x7f" for one in reference):
        return ""
    try:
        return urljoin(base, reference)
    except ValueError:
        return ""


def address_of_file(path):
    return "file://" + quote(os.fsencode(path))


def split_address(address):
    """The scheme, the host and the decoded path of an address; nothing of a text that is none."""
    try:
        parts = urlsplit(address)
        path = os.fsdecode(unquote_to_bytes(parts.path))
    except ValueError:
        return "", "", ""
    return ("", "", "") if "\0" in path else (parts.scheme, parts.netloc, path)


def path_of(address):
    """The path of a file's address; None for any other."""
    scheme, host, path = split_address(address)
    return os.path.normpath(path) if scheme == "file" and host in ("", "localhost") else None


def common_end(left, right):
    """How many parts two lists have in common at their ends."""
    count = 0
    while count < min(len(left), len(right)) and left[-1 - count] == right[-1 - count]:
        count += 1
    return count
