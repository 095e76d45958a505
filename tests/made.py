"""The cases of `tests/cases/`: their documents, and the runs that a case stands for. `tests/acceptance` says what a case is."""
import os
import re

from parts import own_cases

LONG = 67_108_865
# The parts of a case that are no documents.
SAID = ("case", "like", "words", "out", "joint", "each", "answers", "cut", "altered")

REPORT = (
    '{"documentInfo":{"documentType":"https://xbrl.org/2021/xbrl-json","namespaces":{"eg":"http://example.com/t",'
    '"same":"http://example.com/t","e":"http://example.com/e","iso4217":"http://www.xbrl.org/2003/iso4217",'
    '"cur":"http://www.xbrl.org/2003/iso4217"},"taxonomy":["t.xsd"]},"facts":{'
)

SCHEMA = (
    '<?xml version="1.0" encoding="UTF-8"?>\n<xs:schema xmlns:xs="http://www.w3.org/2001/XMLSchema" '
    'xmlns:xbrli="http://www.xbrl.org/2003/instance" targetNamespace="http://example.com/t">\n'
    + "".join(f'<xs:element name="{name}" id="eg_{name}" type="xbrli:monetaryItemType"/>\n' for name in "TUSABC")
    + "</xs:schema>\n"
)

LINKBASE = (
    '<?xml version="1.0" encoding="UTF-8"?>\n<link:linkbase xmlns:link="http://www.xbrl.org/2003/linkbase" '
    'xmlns:xlink="http://www.w3.org/1999/xlink">\n'
)


def report(facts):
    """A report of facts, each as its id, value, concept, unit, and decimals unless it is exact."""
    return REPORT + ",".join(fact(*line.split(" ")) for line in facts) + "}}"


def fact(name, value, concept, unit, decimals=None):
    return (
        f'"{name}":{{"value":{value},"dimensions":{{"entity":"e:1","period":"2024-01-01","concept":"eg:{concept}",'
        f'"unit":"{unit}"}}' + (f',"decimals":{decimals}' if decimals else "") + "}"
    )


def linkbase(arcs):
    """A linkbase of arcs, each in an extended link of its own, as its role, ends, weight, and perhaps an attribute."""
    return LINKBASE + "".join(link(*line.split(" ")) for line in arcs) + "</link:linkbase>\n"


def link(role, total, contributor, weight, attribute=""):
    return (
        f'<link:calculationLink xlink:type="extended" xlink:role="{role}">\n'
        f'<link:loc xlink:type="locator" xlink:label="t" xlink:href="t.xsd#eg_{total}"/>\n'
        f'<link:loc xlink:type="locator" xlink:label="c" xlink:href="t.xsd#eg_{contributor}"/>\n'
        '<link:calculationArc xlink:type="arc" xlink:arcrole="https://xbrl.org/2023/arcrole/summation-item" '
        f'xlink:from="t" xlink:to="c" order="1" weight="{weight}" {attribute}/>\n</link:calculationLink>\n'
    )


def without_blank(lines):
    """The lines without the blank ones at their end."""
    while lines and not lines[-1]:
        lines = lines[:-1]
    return lines


def document(kind, lines):
    """The bytes of a document, as the lines of its part say."""
    if kind == "text":
        return "\n".join(lines).encode()
    if kind == "lines":
        return "".join(line + "\n" for line in lines).encode()
    if kind == "bytes":
        return "\n".join(lines).encode().decode("unicode_escape").encode("latin-1")
    if kind == "facts":
        return report(lines).encode()
    if kind == "arcs":
        return linkbase(lines).encode()
    if kind == "schema":
        return SCHEMA.encode()
    if kind in ("long", "longest"):
        return b" " * (LONG if kind == "long" else LONG - 1)
    raise ValueError(f"no part of a case is called {kind!r}")


def cases(path):
    """The cases of a file, each as what is said of it and its documents, with those of the case that it is like.

    What is said of it are its parts, by their kinds: what stands behind the kind, and the lines. The documents are bytes, by their names.
    """
    earlier = {}
    for parts in own_cases(path):
        said = {kind: (text, without_blank(lines)) for kind, text, lines in parts if kind in SAID}
        documents = dict(earlier[said["like"][0]]) if "like" in said else {}
        for kind, name, lines in parts:
            if kind not in SAID:
                documents[name] = document(kind, without_blank(lines))
        earlier[said["case"][0]] = documents
        yield said, documents


def cuts(said, documents):
    """The same case over each text that is left of its document without so many of the last bytes."""
    name, fewest, *most = said["cut"][0].split(" ")
    whole = documents[name]
    for length in range(len(whole) - int(fewest), len(whole) - int(most[0]) - 1 if most else -1, -1):
        yield f"{length} bytes of {name}", dict(documents, **{name: whole[:length]})


def altered_lines(lines, how):
    """Lines with each of them in turn taken out, repeated, or in the place of the next one."""
    for at, line in enumerate(lines):
        if how == "out":
            yield lines[:at] + lines[at + 1 :]
        elif how == "twice":
            yield lines[: at + 1] + lines[at:]
        elif at + 1 < len(lines):
            yield lines[:at] + [lines[at + 1], line] + lines[at + 2 :]


def altered(said, documents):
    """The same case over each text of its document with a line altered, and the answer to each."""
    name, how = said["altered"][0].split(" ")
    texts = list(altered_lines(documents[name].splitlines(keepends=True), how))
    for number, (text, answer) in enumerate(zip(texts, said["answers"][1], strict=True), 1):
        status, _, line = answer.partition(" ")
        yield f"line {number} {how}", dict(said, out=(status, [line])), dict(documents, **{name: b"".join(text)})


def runs(path):
    """The runs of the cases of a file: the name of each, what is said of it, and its documents."""
    for said, documents in cases(path):
        name = said["case"][0]
        if "cut" in said:
            yield from ((f"{name}, {what}", said, cut) for what, cut in cuts(said, documents))
        elif "altered" in said:
            yield from ((f"{name}, {what}", wanted, text) for what, wanted, text in altered(said, documents))
        else:
            yield name, said, documents


def fits_each(text, said, documents):
    """Whether a text is one of the lines that each run may write. At PLACE it has a number up to the length of the document that is cut."""
    length = len(documents[said["cut"][0].split(" ")[0]])
    for line in said["each"][1]:
        found = re.fullmatch(re.escape(line).replace("PLACE", "(0|[1-9][0-9]*)") + "\n", text)
        if found and all(int(place) <= length for place in found.groups()):
            return True
    return False


def write_documents(documents, folder):
    """Writes documents into a folder, by their names."""
    for name, content in documents.items():
        place = os.path.join(folder, name)
        os.makedirs(os.path.dirname(place), exist_ok=True)
        with open(place, "wb") as file:
            file.write(content)
