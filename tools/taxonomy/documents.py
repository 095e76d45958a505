"""What is read of the documents of a taxonomy, of catalogs and of reports."""
import json
import os
from collections import namedtuple
from xml.parsers import expat

from taxonomy.names import SPACE, Refused, address_of_file, joined

LONG = 67_108_864
DEEP = 127
BYTE_ORDER_MARK = b"\xef\xbb\xbf"

XS = "http://www.w3.org/2001/XMLSchema "
LINK = "http://www.xbrl.org/2003/linkbase "
XLINK = "http://www.w3.org/1999/xlink "
XML_BASE = "http://www.w3.org/XML/1998/namespace base"
REWRITE = "urn:oasis:names:tc:entity:xmlns:xml:catalog rewriteURI"
SCHEMA = XS + "schema"
LINKBASE = LINK + "linkbase"
LINKS = [LINKBASE, LINK + "calculationLink"]
NEW = "https://xbrl.org/2023/arcrole/summation-item"
OLD = "http://www.xbrl.org/2003/arcrole/summation-item"

# The elements that refer to documents: how they are called here, and the attribute that has the reference.
KINDS = {XS + local: ("xs:" + local, "schemaLocation") for local in ("import", "include", "redefine")}
KINDS |= {
    LINK + local: ("link:" + local, XLINK + "href")
    for local in ("schemaRef", "linkbaseRef", "loc", "roleRef", "arcroleRef")
}

# The roles of references to linkbases that are not of calculations.
OTHER_LINKBASES = {
    f"http://www.xbrl.org/2003/role/{name}LinkbaseRef" for name in ("label", "reference", "presentation", "definition")
}

# Namespaces of the standards whose schemas declare no concept and no type that `check` would look up.
STANDARDS = {
    "http://www.w3.org/XML/1998/namespace",
    "http://www.w3.org/1999/xlink",
    "http://www.xbrl.org/2003/instance",
    "http://www.xbrl.org/2003/linkbase",
    "http://www.xbrl.org/2003/XLink",
    "http://www.xbrl.org/2004/ref",
    "http://www.xbrl.org/2006/ref",
    "http://xbrl.org/2005/xbrldt",
    "http://xbrl.org/2008/generic",
    "http://xbrl.org/2008/label",
    "http://xbrl.org/2008/reference",
    "http://www.xbrl.org/2009/role/negated",
    "http://www.xbrl.org/2009/role/net",
}

# A reference: its element, its text up to `#`, the addresses that it may mean, whether `check` needs what it leads to, and
# the namespace that an import names.
Reference = namedtuple("Reference", "kind text addresses is_needed space")


def reference_of(kind, text, bases, is_needed=True, space=None):
    """The reference that a text is from these bases."""
    part = text.strip(SPACE).partition("#")[0]
    return Reference(kind, part, tuple(joined(base, part) for base in bases), is_needed, space)


class Reader:
    """Reads a document element by element: the names that are open, and the addresses from which references count."""

    def __init__(self, bases):
        self.open = []
        self.bases = [bases]
        self.encoding = "utf-8"

    def read(self, path):
        """Reads the file, or raises Refused."""
        parser = expat.ParserCreate(namespace_separator=" ")
        parser.StartElementHandler = self.begin
        parser.EndElementHandler = self.end
        parser.XmlDeclHandler = self.declare
        parser.StartDoctypeDeclHandler = self.refuse_document_type
        try:
            if os.path.getsize(path) > LONG:
                raise Refused(f"more than {LONG:,} bytes")
            with open(path, "rb") as file:
                if file.read(2) in (b"\xff\xfe", b"\xfe\xff"):
                    self.encoding = "utf-16"
                file.seek(0)
                parser.ParseFile(file)
        except OSError as fault:
            raise Refused(fault.strerror or str(fault))
        except (expat.ExpatError, LookupError, ValueError) as fault:
            raise Refused(f"no XML document: {fault}")

    def declare(self, _version, encoding, _standalone):
        self.encoding = encoding or self.encoding

    def refuse_document_type(self, *_):
        raise Refused("a document type, which is not read")

    def begin(self, name, attributes):
        if len(self.open) >= DEEP:
            raise Refused(f"more than {DEEP} elements inside one another")
        base = attributes.get(XML_BASE)
        bases = self.bases[-1]
        self.bases.append(bases if base is None else tuple(joined(one, base.strip(SPACE)) for one in bases))
        self.element(name, attributes)
        self.open.append(name)

    def end(self, _name):
        self.open.pop()
        self.bases.pop()

    def element(self, name, attributes):
        """Takes an element, before it is open."""
        raise NotImplementedError


class Catalog(Reader):
    """The rewrites of a catalog: a start of addresses, and the address that stands for it."""

    def __init__(self, path):
        super().__init__((address_of_file(path),))
        self.rewrites = []
        self.read(path)

    def element(self, name, attributes):
        start, prefix = attributes.get("uriStartString"), attributes.get("rewritePrefix")
        if name == REWRITE and start and prefix is not None:
            self.rewrites.append((start, joined(self.bases[-1][0], prefix)))


class Document(Reader):
    """What is read of a document of a taxonomy: its root, its references, and what it has of calculations."""

    def __init__(self, path, shown, bases):
        super().__init__(bases)
        self.path = path
        self.shown = shown
        self.root = None
        self.space = None
        self.references = {}  # the keys alone count, in their order
        self.has_links = False
        self.arcs = {NEW: 0, OLD: 0}
        self.has_linkbase_inside = False
        self.has_links_inside = False
        self.odd_locator = None

    def element(self, name, attributes):
        if not self.open:
            self.root, self.space = name, attributes.get("targetNamespace")
        if name in KINDS:
            self.refer(name, attributes)
        elif self.open[:1] == [SCHEMA]:
            self.has_linkbase_inside |= name == LINKBASE
            self.has_links_inside |= name == LINKS[1]
        elif name == LINKS[1]:
            self.has_links |= self.open == LINKS[:1]
        elif name == LINK + "calculationArc" and self.open == LINKS:
            arcrole = attributes.get(XLINK + "arcrole", "").strip(SPACE)
            if arcrole in self.arcs:
                self.arcs[arcrole] += 1

    def refer(self, name, attributes):
        """Notes what an element refers to."""
        kind, attribute = KINDS[name]
        text, space = attributes.get(attribute), attributes.get("namespace")
        if text is None or (name.startswith(XS) and self.open != [SCHEMA]) or (kind == "xs:import" and space in STANDARDS):
            return
        is_needed = self.is_needed(kind, attributes)
        if kind == "link:loc" and is_needed:
            self.look_at_locator(text.strip(SPACE))
        self.references[reference_of(kind, text, self.bases[-1], is_needed, space)] = True

    def is_needed(self, kind, attributes):
        """Whether `check` may need what an element of this kind refers to."""
        if kind == "link:linkbaseRef":
            return attributes.get(XLINK + "role") not in OTHER_LINKBASES
        if kind == "link:loc":
            return self.open == LINKS
        return kind not in ("link:roleRef", "link:arcroleRef")

    def look_at_locator(self, href):
        """Keeps the first locator whose id `check` would not find as it is written."""
        _, mark, place = href.partition("#")
        if self.odd_locator is None and (not mark or "%" in place or "(" in place):
            self.odd_locator = href

    def is_standard(self):
        return self.root == SCHEMA and self.space in STANDARDS

    def is_schema(self):
        return self.root == SCHEMA and not self.is_standard()

    def is_calculation(self):
        return self.root == LINKBASE and self.has_links


def is_xml(path):
    """Whether a file begins as XML documents do."""
    try:
        with open(path, "rb") as file:
            return file.read(1024).lstrip(BYTE_ORDER_MARK + b"\xff\xfe\0 \t\r\n").startswith(b"<")
    except OSError as fault:
        raise Refused(fault.strerror or str(fault))


def taxonomy_of(path):
    """The references of a report to its taxonomy, or raises Refused."""
    try:
        with open(path, "rb") as file:
            content = file.read(LONG + 1)
    except OSError as fault:
        raise Refused(fault.strerror or str(fault))
    if len(content) > LONG:
        raise Refused(f"more than {LONG:,} bytes")
    if content.startswith(BYTE_ORDER_MARK):
        raise Refused("a byte order mark stands before the report, with which `check` refuses it (xc:notJson)")
    try:
        report = json.loads(content.decode())
    except RecursionError:
        raise Refused("no JSON value: it is nested too deep")
    except ValueError as fault:
        raise Refused(f"no JSON value in UTF-8: {fault}")
    information = report.get("documentInfo") if isinstance(report, dict) else None
    taxonomy = information.get("taxonomy", []) if isinstance(information, dict) else None
    if not isinstance(taxonomy, list) or not all(isinstance(one, str) for one in taxonomy):
        raise Refused("no report in xBRL-JSON: its documentInfo.taxonomy is no list of texts")
    return taxonomy
