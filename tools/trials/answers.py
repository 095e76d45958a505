"""The grammar of what the program writes, from `docs/FORMATS.md` alone.

`fault_of` says what of an output is not as that page has it. Nothing here asks what the right answer is: only whether it is an
answer at all, one that its status and its documents fit.
"""
import re
from fractions import Fraction
from math import lcm

LIMIT = 2**127
USAGE = (
    "usage: xcalc sum MODE REPORT TOTAL TERM... | check [--old-arcs] MODE REPORT DOC... | "
    "verify [--old-arcs] MODE CERTIFICATE REPORT DOC... | sample N"
)
NUMBER = "0|[1-9][0-9]*"
TEXT = "(?:[^\0- %\x7f]|%[01][0-9A-F]|%20|%25|%7F)+|%"
BINDING = re.compile(rf"binding ({NUMBER}) (consistent|unjudged|too-wide|inconsistent) ({TEXT}) ({TEXT})(?: (\S+))?")
POINT = re.compile(rf"point ({NUMBER}) empty ({TEXT}) xc:emptyDataPoint")
COUNTS = re.compile(rf"bindings ({NUMBER}) points ({NUMBER})")
BECAUSE = re.compile(rf"because fact ({NUMBER}) ({TEXT})")
MULTIPLIER = re.compile(rf"(value|binding|low|high) ({NUMBER}) (\S+)")
FRACTION = re.compile(rf"(-?)({NUMBER})(?:/({NUMBER}))?")
OPERATION = re.compile(r"(add|sub|mul|div) (\S+) (\S+)")
COMPONENT = re.compile(
    rf"component ({NUMBER}) (?:wide-fact (?:{NUMBER}) (?:{TEXT})|(?:ends (?:{NUMBER}) (?:{NUMBER})|"
    rf"corner basic((?: (?:{NUMBER}))*) high((?: (?:{NUMBER}))*)) op (.*))"
)
MISSES = re.compile(rf"misses (?:(?:point|binding|fact) (?:{NUMBER})|constant)")
TOO_WIDE = re.compile(rf"too-wide (?:fact (?:{NUMBER}) (?:{TEXT})|(?:(?:point|binding) (?:{NUMBER})|constant) (.*))")
REFUSED = re.compile(rf"refused ({TEXT}) (xc:\w+)(?: ({TEXT}))?")
READ_FAULT = re.compile(rf"read-fault ({TEXT})")

CODES = {"rounding": "calc11e:inconsistentCalculationUsingRounding", "truncation": "calc11e:inconsistentCalculationUsingTruncation"}

# What the place of each code is, and which documents it is a code of.
BYTE, NODE, FACT, LINE, WORD, PART, NONE = "byte", "node", "fact", "line", "word", "part", "none"
PLACES = {
    "xc:tooLong": (NONE, "any"),
    **dict.fromkeys(
        ("xc:notUtf8", "xc:notItem", "xc:doctype", "xc:unbalanced", "xc:tooDeep", "xc:noSpace", "xc:sameAttribute"), (BYTE, "doc")
    ),
    **dict.fromkeys(("xc:notTaxonomy", "xc:sameFile"), (NONE, "doc")),
    **dict.fromkeys(
        ("xc:badPrefix", "xc:sameId", "xc:sameConcept", "xc:badWeight", "xc:zeroWeight", "xc:badOrder", "xc:badPriority"), (NODE, "doc")
    ),
    **dict.fromkeys(("xc:badUse", "xc:noLocator", "xc:unresolved", "xc:unknownType", "xc:nodeNotDecimal"), (NODE, "doc")),
    "xc:notJson": (NONE, "report"),
    "xc:notReport": (PART, "report"),
    "xc:badSumName": (WORD, "report"),
    **dict.fromkeys(("xc:badName", "xc:badValue", "xc:badDecimals"), (FACT, "report")),
    "xc:tooMany": (NONE, "report"),
    "xc:notCertificate": (LINE, "certificate"),
}
PARTS = ("root", "documentInfo", "documentType", "namespaces", "facts")


class Fault(Exception):
    """Something that is not as the page has it."""


def want(holds, what):
    if not holds:
        raise Fault(what)


def printed(text):
    """A text as it is printed."""
    shown = "".join(f"%{ord(letter):02X}" if letter <= " " or letter in "%\x7f" else letter for letter in text)
    return shown or "%"


def unprinted(text):
    """The bytes of a text that is printed so."""
    return re.sub("%(..)?", lambda found: chr(int(found.group(1), 16)) if found.group(1) else "", text).encode()


def fraction(word):
    """A fraction in its one spelling."""
    found = FRACTION.fullmatch(word)
    want(found, f"{word!r} is no fraction")
    sign, above, below = found.groups()
    value = Fraction(int(above), int(below or 1)) if below != "0" else None
    want(value is not None and str(value) == above + (f"/{below}" if below else ""), f"{word!r} is not in lowest terms")
    want(not (sign and value == 0), "a negative zero")
    want(value.numerator < LIMIT and value.denominator < LIMIT, f"{word} passes 128 bits")
    return -value if sign else value


def passes(name, left, right):
    """Whether an operation passes 128 bits."""
    if name == "div":
        want(right != 0, "a division by 0")
    if name in ("mul", "div"):
        result = left * right if name == "mul" else left / right
        return abs(result.numerator) >= LIMIT or result.denominator >= LIMIT
    common = lcm(left.denominator, right.denominator)
    terms = [left.numerator * (common // left.denominator), right.numerator * (common // right.denominator)]
    whole = terms[0] + terms[1] if name == "add" else terms[0] - terms[1]
    return any(abs(term) >= LIMIT for term in (common, *terms, whole))


def read_operation(text):
    found = OPERATION.fullmatch(text)
    want(found, f"{text!r} is no operation")
    name, left, right = found.groups()
    want(passes(name, fraction(left), fraction(right)), f"{text} does not pass 128 bits")


def ascending(numbers, what):
    want(all(one < other for one, other in zip(numbers, numbers[1:])), f"{what} do not ascend")


class Lines:
    """The lines of an output, which are taken one by one."""

    def __init__(self, text):
        self.lines, self.at = text.split("\n")[:-1], 0

    def next(self):
        return self.lines[self.at] if self.at < len(self.lines) else None

    def take(self, what):
        want(self.at < len(self.lines), f"{what} is missing")
        self.at += 1
        return self.lines[self.at - 1]

    def take_while(self, form):
        """The groups of all next lines of a form."""
        found = []
        while self.at < len(self.lines) and (match := form.fullmatch(self.lines[self.at])):
            found.append(match.groups())
            self.at += 1
        return found


def read_certificate(lines, points, bindings):
    """The kind of a certificate, and the facts that it names."""
    want(lines.take("a certificate") == "certificate 1", "no line `certificate 1`")
    kind, found = lines.take("a body"), []
    want(kind in ("feasible", "infeasible"), f"a body {kind!r}")
    for name, number, value in lines.take_while(MULTIPLIER):
        found.append((name, int(number), fraction(value)))
    want(lines.take("the line `end`") == "end", "a line that fits nowhere in a certificate")
    if kind == "feasible":
        want([(name, number) for name, number, _ in found] == [("value", k) for k in range(points)], "values that do not fit the points")
        return kind, []
    names = [name for name, _, _ in found]
    want(names == sorted(names, key=["binding", "low", "high", "value"].index) and "value" not in names, "multipliers out of order")
    for name in ("binding", "low", "high"):
        ascending([number for each, number, _ in found if each == name], f"the lines `{name}`")
    want(all(value != 0 if name == "binding" else value > 0 for name, _, value in found), "a multiplier of the wrong sign")
    want(all(number < bindings for name, number, _ in found if name == "binding"), "a binding that is not there")
    return kind, sorted({number for name, number, _ in found if name != "binding"})


def read_components(lines):
    """The components without an answer."""
    numbers = []
    while (line := lines.next()) is not None:
        found = COMPONENT.fullmatch(line)
        want(found, f"{line!r} is no component")
        lines.take("a component")
        numbers.append(int(found.group(1)))
        for group in found.groups()[1:3]:
            ascending([int(word) for word in (group or "").split()], "variables")
        if found.group(4) is not None:
            read_operation(found.group(4))
    want(numbers, "no component")
    ascending(numbers, "components")


def want_facts(ids, words):
    """Each of these ids is that of a fact of the report."""
    for each in ids:
        want(each in words.ids, f"a fact {each} that the report does not have")


def read_joint(lines, points, bindings, words):
    """The kind of a joint part."""
    head = lines.take("a joint part")
    want(head in ("joint feasible", "joint infeasible", "joint too-wide"), f"{head!r} is no joint part")
    kind = head.removeprefix("joint ")
    if kind == "too-wide":
        read_components(lines)
        return kind
    because = lines.take_while(BECAUSE)
    told = [int(number) for number, _ in because]
    want_facts([fact for _, fact in because], words)
    ascending([unprinted(fact) for _, fact in because], "the ids of facts")
    proof, named = read_certificate(lines, points, bindings)
    want(proof == kind, "a certificate of the other kind")
    want(told == named, "facts that are not those of the certificate")
    return kind


def read_findings(text, words):
    """The status that findings and a joint part have."""
    lines = Lines(text)
    counts = COUNTS.fullmatch(lines.take("the first line"))
    want(counts, "no counts")
    bindings, points = map(int, counts.groups())
    found = lines.take_while(BINDING)
    want([int(number) for number, *_ in found] == list(range(bindings)), "bindings that are not those that are counted")
    for _, verdict, role, _, code in found:
        want(code == (CODES[words.mode] if verdict == "inconsistent" else None), f"a code {code} of a binding that is {verdict}")
        want(words.command != "sum" or role == "sum", "a role of a sum")
    without = lines.take_while(POINT)
    empty = [int(number) for number, _ in without]
    ascending(empty, "empty points")
    want_facts([fact for _, _, _, fact, _ in found] + [fact for _, fact in without], words)
    want(points <= len(words.ids), "more points than facts")
    want(not empty or empty[-1] < points, "an empty point that is not there")
    joint = read_joint(lines, points, bindings, words) if words.command == "check" else "feasible"
    want(lines.next() is None, f"a line {lines.next()!r} behind all others")
    verdicts = {verdict for _, verdict, *_ in found}
    want("unjudged" not in verdicts or empty, "a binding that is unjudged without an empty point")
    if words.command == "check":
        want(joint != "feasible" or not (empty or "inconsistent" in verdicts), "values for what has none")
    if "inconsistent" in verdicts or empty or joint == "infeasible":
        return 1
    return 4 if "too-wide" in verdicts or joint == "too-wide" else 0


def read_judgement(line):
    """The status of a line of `verify`, where it is one."""
    if line in ("accepted feasible", "accepted infeasible"):
        return 0
    if MISSES.fullmatch(line):
        return 1
    if found := TOO_WIDE.fullmatch(line):
        if found.group(1) is not None:
            read_operation(found.group(1))
        return 4
    return None


def name_starts(content):
    """How many tags a document can have at most that begin an element."""
    return len(re.findall(rb"<[^/!? \t\r\n]", content))


def within(kind, place, content, words):
    """Whether a place is one of a document."""
    if kind == NONE:
        return place is None
    if place is None:
        return False
    if kind in (BYTE, NODE, LINE):
        if not re.fullmatch(NUMBER, place):
            return False
        most = {BYTE: len(content), NODE: name_starts(content) - 1, LINE: content.count(b"\n") + 1}[kind]
        return (1 if kind == LINE else 0) <= int(place) <= most
    if kind == WORD:
        return place in [printed(word) for word in words.names]
    return place in PARTS if kind == PART else place in words.ids


def read_refusal(line, words):
    """A refusal names a document of the words, a code of such documents, and a place of the code's that lies within it."""
    found = REFUSED.fullmatch(line)
    want(found, f"{line!r} is no refusal")
    name, code, place = found.groups()
    want(code in PLACES, f"a code {code} that there is not")
    kind, role = PLACES[code]
    files = [content for each, as_, content in words.files if printed(each) == name and role in (as_, "any")]
    want(files, f"{code} of {name}, which is no {role}")
    if kind == FACT:
        want(place is not None and place in words.ids, f"a fact {place} that the report does not have")
    else:
        want(any(within(kind, place, content, words) for content in files), f"a place {place} that does not lie within {name}")


def read_line(line, words):
    """The status of one line that stands in place of all findings."""
    if line == USAGE:
        want(not words.accepted, "usage of words that are accepted")
        return 2
    if line.startswith("refused "):
        read_refusal(line, words)
        return 3
    found = READ_FAULT.fullmatch(line)
    want(found and found.group(1) in [printed(name) for name, _, content in words.files if content is None], "a read fault of a file that is there")
    return 5


def fault_of(output, status, words):
    """What of an output and its status is not as the page has it, or none."""
    try:
        text = output.decode()
        if not text:
            want(words.accepted is None and status == 2, f"nothing written, status {status}")
            return None
        want(words.accepted is not None, "a line for words that are not UTF-8")
        want(text.endswith("\n"), "a line that does not end")
        first = text.split("\n", 1)[0]
        if first.startswith(("usage: ", "refused ", "read-fault ")):
            want(text.count("\n") == 1, "more than one line")
            wanted = read_line(first, words)
        elif words.command == "verify" and words.accepted:
            want(text.count("\n") == 1, "more than one line")
            wanted = read_judgement(first)
        else:
            want(words.accepted, "findings for words that are not accepted")
            wanted = read_findings(text, words)
        want(status == wanted, f"status {status} with what has status {wanted}")
    except UnicodeDecodeError:
        return "an output that is not UTF-8"
    except Fault as fault:
        return str(fault)
    return None
