"""Changes of documents and words, each drawn from a source of chance.

A change of a document takes the chance, its bytes and the bytes of some other document, and answers the bytes after it. Each has a line
that says what it does.
"""
import re

MOST = 300_000  # bytes of a document that a change may make

LIMITS = [37, 38, 127, 128, 2**31, 2**32, 2**53, 2**63, 2**64, 2**126, 2**127, 10**37, 10**38, 10**40]
NUMBERS = [
    *(str(sign * (limit + step)) for limit in LIMITS for step in (-1, 0, 1) for sign in (1, -1)),
    *("0", "-0", "+0", "00", "1", "-1", "+1", "01", "1.", ".5", "-.5", ".", "-", "+", "", "1e3", "1E+6", "0e0", "INF", "-INF", "NaN"),
    *("1/2", "-1/2", "2/4", "1/0", "0/1", "1/1", "0.1", "1.0", "0." + "0" * 36 + "1", "0." + "0" * 37 + "1", "9" * 39, "9" * 1000),
    *("0." + "9" * 37, "-0." + "9" * 38, f"1/{2**127 - 1}", f"{2**127 - 1}/{2**127 - 2}", f"1/{2**127}", "0x10", "\u0661", "1 ", " 1"),
]
VALUES = ["null", "true", "[]", "{}", '""', '"1"', '"INF"', "1", "-1", "0", "1.5", "1e2", "-0", '"eg:A"', '"eg:\\u0041"', '"\\ud83d\\ude00"']
TOKENS = [b"<", b">", b"&", b'"', b"'", b"/", b"=", b" ", b"\n", b"\r\n", b"\t", b":", b"]]>", b"--", b"<!--", b"-->", b"<?", b"?>", b"%", b"#"]
TOKENS += [b"<![CDATA[", b"&amp;", b"&#0;", b"&#65;", b"&#x10FFFF;", b"&x;", b"<!DOCTYPE a>", b"<a/>", b"</a>", b'<?xml version="1.0"?>']
TOKENS += [b"\x00", b"\x7f", b"\xff", b"\xc0\x80", b"\xed\xa0\x80", b"\xef\xbb\xbf", b"\xf4\x90\x80\x80", b"\xc2\x85", b"\xe2\x80\xa8", b"\xf0\x9f\x98\x80"]
TOKENS += [b"{", b"}", b"[", b"]", b",", b"\\u0000", b"\\ud800", b"\\", b'""', b"(", b")", b"*", b"certificate 1\n", b"end\n"]
DEPTHS = [1, 2, 100, 120, *range(122, 132), 200, 1000, 20_000]

NUMBER = re.compile(rb"[+-]?\d+(?:[./]\d+)*")
NAME = re.compile(rb"[A-Za-z_][\w.-]*")
PREFIX = re.compile(rb"[A-Za-z_][\w.-]*(?=:[A-Za-z_])")
ATTRIBUTE = re.compile(rb"\s[\w:.-]+\s*=\s*(\"[^\"<]*\"|'[^'<]*')")
TAG = re.compile(rb"<[^<>]*>")
EMPTY = re.compile(rb"<[^<>/!?][^<>]*/>")
LINK = re.compile(rb"<([\w:.-]+)\b[^<>]*[^/]>.*?</\1>", re.DOTALL)
MEMBER = re.compile(rb"\"(?:[^\"\\]|\\.)*\"\s*:\s*(\"(?:[^\"\\]|\\.)*\"|[\w.+-]+|\{[^{}]*\})")
FACT = re.compile(rb"\"(?:[^\"\\]|\\.)*\"\s*:\s*\{[^{}]*\{[^{}]*\}[^{}]*\}")
STATED = re.compile(rb"\"(?:value|decimals)\"\s*:\s*\"?([+-]?[\d.]+)")
QUOTED = re.compile(rb"\"((?:[^\"\\]|\\.)*)\"")


def place(chance, content):
    return chance.randrange(len(content) + 1)


def stretch(chance, content, most=200):
    """A short stretch of a document, where it begins and ends."""
    start = place(chance, content)
    return start, min(len(content), start + chance.randint(1, most))


def put(content, span, new):
    return content[: span[0]] + new + content[span[1] :]


def one_of(chance, form, content):
    """One place where a form matches."""
    found = list(form.finditer(content))
    return chance.choice(found) if found else None


def flip(chance, content, other):
    """A bit of a byte is turned round."""
    if not content:
        return content
    at = chance.randrange(len(content))
    return put(content, (at, at + 1), bytes([content[at] ^ 1 << chance.randrange(8)]))


def byte(chance, content, other):
    """A byte becomes another."""
    at = place(chance, content)
    return put(content, (at, at + 1), bytes([chance.randrange(256)]))


def token(chance, content, other):
    """Something that has a meaning in some document is put in."""
    at = place(chance, content)
    return put(content, (at, at), chance.choice(TOKENS))


def cut(chance, content, other):
    """The document ends before its end, or begins behind its beginning."""
    at = place(chance, content)
    return content[:at] if chance.random() < 0.7 else content[at:]


def take_out(chance, content, other):
    """A stretch is taken out."""
    return put(content, stretch(chance, content), b"")


def double(chance, content, other):
    """A stretch stands twice, or many times."""
    start, end = stretch(chance, content)
    times = chance.choice([1, 1, 1, 2, 10, 200])
    return put(content, (end, end), content[start:end] * times)


def splice(chance, content, other):
    """A stretch becomes one of another document."""
    start, end = stretch(chance, other, 1000)
    return put(content, stretch(chance, content), other[start:end])


def swap(chance, content, other):
    """Two stretches change places."""
    one, two = sorted(place(chance, content) for _ in range(2))
    end = min(len(content), two + chance.randint(1, 100))
    middle = min(two, one + chance.randint(1, 100))
    return content[:one] + content[two:end] + content[middle:two] + content[one:middle] + content[end:]


def number(chance, content, other):
    """A number becomes one at a bound, or past it."""
    found = one_of(chance, NUMBER, content)
    return put(content, found.span(), chance.choice(NUMBERS).encode()) if found else content


def digit(chance, content, other):
    """A digit of a value or of decimals becomes another."""
    found = one_of(chance, STATED, content)
    if not found:
        return number(chance, content, other)
    at = chance.randrange(*found.span(1))
    return put(content, (at, at + 1), chance.choice(b"0123456789".decode()).encode())


def grow(chance, content, other):
    """A number gets more digits."""
    found = one_of(chance, NUMBER, content)
    times = chance.choice([1, 5, 30, 36, 40, 500])
    return put(content, (found.end(), found.end()), b"%d" % chance.randrange(10) * times) if found else content


def weight(chance, content, other):
    """The weight of an arc, or another number of it, becomes another, at a bound or past it."""
    found = one_of(chance, re.compile(rb"(?:weight|order|priority)=\"([^\"]*)\""), content)
    return put(content, found.span(1), chance.choice(NUMBERS).encode()) if found else content


def other_weight(chance, content, other):
    """The weight of an arc becomes another."""
    found = one_of(chance, re.compile(rb"weight=\"([^\"]*)\""), content)
    new = chance.choice(["1", "-1", "2", "-3", "0.5", "-0.25", "7", "0.333", " 1 ", str(2**126), "." + "0" * 36 + "1", "0." + "7" * 37])
    return put(content, found.span(1), new.encode()) if found else content


def other_value(chance, content, other):
    """The value of a fact becomes another number, at a bound or past it, and so do its decimals."""
    found = one_of(chance, re.compile(rb"\"value\"\s*:\s*\"([^\"]*)\""), content)
    new = chance.choice(["0", "-1", "0.5", "100", "99.5", str(2**126), str(-(2**126)), str(2**126 + 1), str(10**37), "0." + "7" * 37, "." + "3" * 36])
    content = put(content, found.span(1), new.encode()) if found else content
    found = one_of(chance, re.compile(rb"\"decimals\"\s*:\s*([+-]?\d+)"), content)
    return put(content, found.span(1), b"%d" % chance.choice([-38, -37, -30, -2, -1, 0, 1, 2, 20, 37, 38])) if found else content


def name(chance, content, other):
    """A name becomes another one of the document."""
    found, new = one_of(chance, NAME, content), one_of(chance, NAME, content)
    return put(content, found.span(), new.group()) if found else content


def name_everywhere(chance, content, other):
    """A name becomes another one wherever it stands."""
    found, new = one_of(chance, NAME, content), one_of(chance, NAME, content)
    return re.sub(rb"\b" + re.escape(found.group()) + rb"\b", lambda _: new.group(), content) if found else content


def prefix(chance, content, other):
    """A prefix becomes another one of the document, or none."""
    found, new = one_of(chance, PREFIX, content), one_of(chance, PREFIX, content)
    return put(content, found.span(), chance.choice([new.group(), new.group(), b"", b"xmlns", b"xml"])) if found else content


def attribute_again(chance, content, other):
    """An attribute is repeated, beside itself or in another tag."""
    found = one_of(chance, ATTRIBUTE, content)
    if not found:
        return content
    at = found.end()
    if chance.random() < 0.5 and (tag := one_of(chance, TAG, content)):
        at = max(tag.start() + 1, tag.end() - (2 if tag.group().endswith(b"/>") else 1))
    return put(content, (at, at), found.group())


def attribute_value(chance, content, other):
    """The value of an attribute becomes that of another, or it is taken out whole."""
    found, new = one_of(chance, ATTRIBUTE, content), one_of(chance, ATTRIBUTE, content)
    if not found:
        return content
    return put(content, found.span(1), new.group(1)) if chance.random() < 0.8 else put(content, found.span(), b"")


def element(chance, content, other):
    """An element is repeated, taken out, or put in another place."""
    found = one_of(chance, EMPTY if chance.random() < 0.7 else LINK, content)
    if not found:
        return content
    left = put(content, found.span(), b"") if chance.random() < 0.6 else content
    tag = one_of(chance, TAG, left)
    return left if not tag or chance.random() < 0.2 else put(left, (tag.end(), tag.end()), found.group())


def network(chance, content, other):
    """A link is repeated in another role, with its ends or its weight altered."""
    found = one_of(chance, re.compile(rb"<([\w:.-]+)\b[^<>]*role[^<>]*[^/]>.*?</\1>", re.DOTALL), content)
    if not found:
        return element(chance, content, other)
    new = re.sub(rb"role=\"[^\"]*\"", b'role="r%d"' % chance.randrange(4), found.group(), count=1)
    hrefs = re.findall(rb"href=\"[^\"]*\"", content)
    if hrefs:
        new = re.sub(rb"href=\"[^\"]*\"", lambda old: chance.choice([old.group(), chance.choice(hrefs)]), new)
    new = re.sub(rb"weight=\"[^\"]*\"", lambda old: chance.choice([old.group(), b'weight="%d"' % chance.choice([-1, 1, 2])]), new)
    return put(content, (found.end(), found.end()), new)


def member_again(chance, content, other):
    """A member of an object is repeated, with its value or another."""
    found, new = one_of(chance, MEMBER, content), one_of(chance, MEMBER, content)
    if not found:
        return content
    text = found.group() if chance.random() < 0.5 else put(found.group(), [at - found.start() for at in found.span(1)], new.group(1))
    return put(content, (found.end(), found.end()), b"," + text)


def member_value(chance, content, other):
    """The value of a member becomes another."""
    found, new = one_of(chance, MEMBER, content), one_of(chance, MEMBER, content)
    return put(content, found.span(1), chance.choice([new.group(1), chance.choice(VALUES).encode()])) if found else content


def fact_again(chance, content, other):
    """A fact is repeated under another id, with a digit or a name altered."""
    found = one_of(chance, FACT, content)
    if not found:
        return member_again(chance, content, other)
    new = b'"x%d"' % chance.randrange(100) + found.group()[found.group().index(b'"', 1) + 1 :]
    concepts = re.findall(rb"\"concept\"\s*:\s*\"[^\"]*\"", content)
    if concepts and chance.random() < 0.5:
        new = re.sub(rb"\"concept\"\s*:\s*\"[^\"]*\"", lambda _: chance.choice(concepts), new)
    new = digit(chance, new, other) if chance.random() < 0.7 else new
    return put(content, (found.end(), found.end()), b"," + new)


def text(chance, content, other):
    """A text in quotes becomes another one, with characters that are printed otherwise or escaped."""
    found = one_of(chance, QUOTED, content)
    odd = [" ", "%", "\x7f", "\u00a0", "\u2028", "\U0001f600", "\\u0000", "\\n", "&#9;", "&#37;", "e\u0301", "", "a" * 5000, "((", "a/b*c", "::"]
    return put(content, found.span(1), "".join(chance.choices(odd, k=chance.randint(1, 3))).encode()) if found else content


def depth(chance, content, other):
    """Something is put inside many elements, arrays, objects or parentheses."""
    begins, ends = chance.choice([(b"<a>", b"</a>"), (b"[", b"]"), (b'{"a":', b"}"), (b"(", b")"), (b"<a>", b""), (b"[", b"")])
    many = chance.choice(DEPTHS)
    found = one_of(chance, TAG, content) if begins == b"<a>" else one_of(chance, MEMBER, content)
    if not found:
        start, end = stretch(chance, content)
    else:
        start, end = (found.end(), found.end()) if begins == b"<a>" else found.span(1)
    return put(content, (start, end), begins * many + (content[start:end] or (b"1" if begins != b"<a>" else b"")) + ends * many)


def line(chance, content, other):
    """A line is taken out, repeated, moved, or becomes one of another document."""
    lines = content.splitlines(keepends=True) or [b""]
    at, to = chance.randrange(len(lines)), chance.randrange(len(lines))
    kind = chance.randrange(4)
    if kind == 0:
        del lines[at]
    elif kind == 1:
        lines.insert(to, lines[at])
    elif kind == 2:
        lines[at], lines[to] = lines[to], lines[at]
    else:
        lines[at] = chance.choice(other.splitlines(keepends=True) or [b"\n"])
    return b"".join(lines)


def line_ends(chance, content, other):
    """The ends of lines become others, or what encodes the text does."""
    kind = chance.randrange(5)
    if kind == 0:
        return content.replace(b"\n", b"\r\n")
    if kind == 1:
        return b"\xef\xbb\xbf" + content
    if kind == 2:
        return content.decode(errors="replace").encode("utf-16")
    return content + b"\n" if kind == 3 else content.rstrip(b"\n")


BYTES = [flip, byte, token, cut, take_out, double, splice, swap, text, depth, line_ends]
XML = [number, weight, name, name_everywhere, prefix, attribute_again, attribute_value, element, element, network, depth]
JSON = [number, digit, grow, name, name_everywhere, prefix, member_again, member_value, fact_again, depth]
CERTIFICATE = [line, line, line, number, number, digit, grow]

# Changes by which a document mostly stays one that is read, so that what stands behind the readers is tried.
MILD_XML = [network, network, other_weight]
MILD_JSON = [digit, digit, fact_again, fact_again, other_value, grow]


def changes_for(content, mild):
    """The changes that fit a document's form."""
    head = content.lstrip()[:1]
    if head == b"<":
        return MILD_XML if mild else XML
    if head == b"{":
        return MILD_JSON if mild else JSON
    return CERTIFICATE


def change_document(chance, scene, others, mild):
    """Changes one document of a scene once, and says how."""
    names = [name for name in sorted(scene.documents) if not (mild and b"<xs:schema" in scene.documents[name])]
    if not names:
        return "nothing"
    name_of = chance.choice(names)
    content = scene.documents[name_of]
    change = chance.choice(BYTES if not mild and chance.random() < 0.3 else changes_for(content, mild))
    other = chance.choice([*others.documents.values(), b""]) if others.documents else b""
    changed = change(chance, content, other)
    scene.documents[name_of] = changed if len(changed) <= MOST else changed[:MOST]
    return f"{name_of}: {change.__name__}"


def change_words(chance, scene, others, mild):
    """Changes the words of a scene, or what their files are, and says how. What is mild exchanges the modes."""
    words = scene.words
    at = chance.randrange(len(words)) if words else 0
    kind = 3 if mild and words else chance.randrange(9)
    if kind == 0 or not words:
        words.insert(at, chance.choice([b"", b"-", b"--old-arcs", b"rounding", b"\xff", b"eg:A", b"+eg:A", b"missing", b".", b"a" * 300]))
    elif kind == 1:
        del words[at]
    elif kind == 2:
        words.append(words[at])
    elif kind in (3, 4):
        words[:] = [{b"rounding": b"truncation", b"truncation": b"rounding"}.get(word, word) for word in words]
    elif kind == 5 and words[0] in (b"check", b"verify"):
        words[1:2] = [] if words[1:2] == [b"--old-arcs"] else [b"--old-arcs", *words[1:2]]
    elif kind == 6:
        words[at] = chance.choice([words[at] + b" ", words[at] + b"\xc3\xa9", words[at].upper(), words[at].replace(b":", b"::"), chance.choice(others.words or [b""])])
    elif kind == 7 and scene.documents:
        del scene.documents[chance.choice(sorted(scene.documents))]
    elif len(scene.documents) > 1:
        one, two = chance.sample(sorted(scene.documents), 2)
        scene.documents[one], scene.documents[two] = scene.documents[two], scene.documents[one]
    return "words"


def changed(chance, scenes):
    """A scene with some changes, and what they are. In half of all they are mild ones, and more of them."""
    scene, told, mild = chance.choice(scenes).copy(), [], chance.random() < 0.5
    for _ in range(chance.choice([1, 2, 4, 8, 12] if mild else [1, 1, 1, 2, 2, 3, 4, 6])):
        change = change_words if chance.random() < 0.08 else change_document
        told.append(change(chance, scene, chance.choice(scenes), mild))
    return scene, told
