"""The texts of a schema, a linkbase and a report, from their parts."""

ITEM = 'type="xbrli:monetaryItemType" substitutionGroup="xbrli:item" xbrli:periodType="instant"'
SUMMATION = "https://xbrl.org/2023/arcrole/summation-item"
DECLARATION = '<?xml version="1.0" encoding="UTF-8"?>\n'


def element(name, id, how=ITEM):
    return f'<xs:element name="{name}" id="{id}" {how}/>\n'


def schema(namespace, lines):
    return (
        f'{DECLARATION}<xs:schema xmlns:xs="http://www.w3.org/2001/XMLSchema" xmlns:xbrli="http://www.xbrl.org/2003/instance" '
        f'xmlns:t="{namespace}" targetNamespace="{namespace}">\n{"".join(lines)}</xs:schema>\n'
    )


def locator(href, label):
    return f'<link:loc xlink:type="locator" xlink:href="{href}" xlink:label="{label}"/>\n'


def arc(total, contributor, more=""):
    return (
        f'<link:calculationArc xlink:type="arc" xlink:arcrole="{SUMMATION}" '
        f'xlink:from="{total}" xlink:to="{contributor}" order="1" weight="1"{more}/>\n'
    )


def link(role, lines):
    begin = f'<link:calculationLink xlink:type="extended" xlink:role="{role}">\n'
    return begin + "".join(lines) + "</link:calculationLink>\n"


def linkbase(links):
    namespaces = 'xmlns:link="http://www.xbrl.org/2003/linkbase" xmlns:xlink="http://www.w3.org/1999/xlink" xmlns:n="http://example.com/n"'
    return f'{DECLARATION}<link:linkbase {namespaces}>\n{"".join(links)}</link:linkbase>\n'


def fact(id, concept, value, period="2024-01-01T00:00:00"):
    dimensions = f'"concept":"eg:{concept}","entity":"e:1","period":"{period}","unit":"iso4217:EUR"'
    return f'"{id}":{{"value":"{value}","decimals":0,"dimensions":{{{dimensions}}}}}'


def report(namespace, file, facts):
    prefixes = f'"eg":"{namespace}","e":"http://example.com/e","iso4217":"http://www.xbrl.org/2003/iso4217"'
    information = f'"documentType":"https://xbrl.org/2021/xbrl-json","namespaces":{{{prefixes}}},"taxonomy":["{file}"]'
    return f'{{"documentInfo":{{{information}}},"facts":{{{",".join(facts)}}}}}'
