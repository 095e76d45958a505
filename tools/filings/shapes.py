"""Filings of several shapes and any size: the documents of each as (schema, linkbase, report)."""

from filings.documents import arc, element, fact, link, linkbase, locator, report, schema

NAMESPACE = "http://example.com/t"
PERIODS = 4


def networks(roles, contributors):
    """The total and the contributors of each role."""
    return [[f"T{role}"] + [f"C{role}x{number}" for number in range(contributors)] for role in range(roles)]


def network_link(role, group):
    locators = [locator(f"t.xsd#eg_{name}", name) for name in group]
    return link(f"http://example.com/r{role}", locators + [arc(group[0], name) for name in group[1:]])


def network_facts(groups, most):
    """A fact for each concept in each of four periods, totals first in their group, as many as are wanted."""
    facts = []
    for period in range(PERIODS):
        for group in groups:
            for name in group:
                value = 100 * (len(group) - 1) if name == group[0] else 100
                facts.append(fact(f"f{len(facts)}", name, value, f"202{period}-01-01"))
    return facts[:most]


def filing(facts):
    """A usual filing: roles of 25 arcs, and four facts for each arc."""
    groups = networks(facts // 100, 25)
    lines = [element(name, f"eg_{name}") for group in groups for name in group]
    links = [network_link(role, group) for role, group in enumerate(groups)]
    return schema(NAMESPACE, lines), linkbase(links), report(NAMESPACE, "t.xsd", network_facts(groups, facts))


def taxonomy(concepts):
    """A large taxonomy: of 20,000 concepts 60 roles use 60 arcs each, and 3,000 facts are reported; fewer in proportion."""
    groups = networks(60 * concepts // 20_000, 60)
    used = [name for group in groups for name in group]
    unused = [f"U{number}" for number in range(concepts - len(used))]
    lines = [element(name, f"eg_{name}") for name in used + unused]
    links = [network_link(role, group) for role, group in enumerate(groups)]
    facts = network_facts(groups, 3_000 * concepts // 20_000)
    return schema(NAMESPACE, lines), linkbase(links), report(NAMESPACE, "t.xsd", facts)


def sample(nodes):
    """A binary tree of totals, as `sample N` makes it: each node the total of its two children, which is one off above leaves."""
    namespace = "urn:xcalc:sample"
    children = [[child for child in (2 * node + 1, 2 * node + 2) if child < nodes] for node in range(nodes)]
    values = [0] * nodes
    for node in reversed(range(nodes)):
        below = children[node]
        above_leaves = bool(below) and not any(children[child] for child in below)
        values[node] = sum(values[child] for child in below) + above_leaves if below else node
    lines = [element(f"N{node}", f"s_N{node}") for node in range(nodes)]
    locators = [locator(f"t.xsd#s_N{node}", f"L{node}") for node in range(nodes)]
    arcs = [arc(f"L{node}", f"L{child}") for node in range(nodes) for child in children[node]]
    facts = [fact(f"f{node}", f"N{node}", values[node]) for node in range(nodes)]
    return schema(namespace, lines), linkbase([link(namespace, locators + arcs)]), report(namespace, "t.xsd", facts)


def one_label(locators):
    """One label for many locators, which an arc from one total joins to each: as many arcs."""
    names = [f"L{number}" for number in range(locators)]
    lines = [element("T", "eg_T")] + [element(name, f"eg_{name}") for name in names]
    labels = [locator("t.xsd#eg_T", "total")] + [locator(f"t.xsd#eg_{name}", "many") for name in names]
    facts = [fact("t", "T", locators)] + [fact(f"f{name}", name, 1) for name in names]
    links = [link("http://example.com/r", labels + [arc("total", "many")])]
    return schema(NAMESPACE, lines), linkbase(links), report(NAMESPACE, "t.xsd", facts)


def one_attribute(arcs):
    """Arcs between the same two concepts that differ by one further attribute alone, so that none is equivalent to another."""
    lines = [element("T", "eg_T"), element("A", "eg_A")]
    labels = [locator("t.xsd#eg_T", "T"), locator("t.xsd#eg_A", "A")]
    links = [link("http://example.com/r", labels + [arc("T", "A", f' n:note="{number}"') for number in range(arcs)])]
    return schema(NAMESPACE, lines), linkbase(links), report(NAMESPACE, "t.xsd", [fact("t", "T", 1), fact("a", "A", 1)])


def one_chain(types):
    """A chain of types, each derived from the one after it, and for each a concept that begins there."""
    lines = []
    for number in range(types):
        base = f"t:Y{number + 1}" if number + 1 < types else "xbrli:monetaryItemType"
        derivation = f'<xs:simpleContent><xs:restriction base="{base}"/></xs:simpleContent>'
        lines.append(f'<xs:complexType name="Y{number}">{derivation}</xs:complexType>\n')
    for number in range(types):
        how = f'type="t:Y{number}" substitutionGroup="xbrli:item" xbrli:periodType="instant"'
        lines.append(element(f"C{number}", f"eg_C{number}", how))
    names = [f"C{number}" for number in range(types)]
    links = [network_link(0, names)]
    facts = [fact(f"f{name}", name, types - 1 if name == "C0" else 1) for name in names]
    return schema(NAMESPACE, lines), linkbase(links), report(NAMESPACE, "t.xsd", facts)


def many_ids(ids):
    """A schema of many ids, each of a concept that nothing names."""
    lines = [element("T", "eg_T"), element("A", "eg_A")] + [element(f"U{number}", f"i{number}") for number in range(ids)]
    links = [network_link(0, ["T", "A"])]
    return schema(NAMESPACE, lines), linkbase(links), report(NAMESPACE, "t.xsd", [fact("t", "T", 1), fact("a", "A", 1)])


# Each shape with its sizes, from the least on.
SHAPES = {
    "filing": (filing, [2_000, 8_000, 32_000]),
    "sample": (sample, [10_000, 30_000, 100_000]),
    "taxonomy": (taxonomy, [5_000, 10_000, 20_000]),
    "one label": (one_label, [750, 1_500, 3_000]),
    "one attribute": (one_attribute, [750, 1_500, 3_000]),
    "one chain": (one_chain, [5_000, 10_000, 20_000]),
    "many ids": (many_ids, [25_000, 50_000, 100_000]),
}
