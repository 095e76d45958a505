"""Files of cases, in parts. A line that begins with `= ` says what the lines below it are, up to the next such line."""


def own_cases(path):
    """The cases of a file as they stand there, each a list of its parts: what a part is, what is said of it, and its lines.

    A case begins with the part `case`. Lines above the first are a remark.
    """
    parts = []
    with open(path) as file:
        for line in file.read().splitlines():
            if line.startswith("= "):
                kind, _, said = line[2:].partition(" ")
                if kind == "case" and parts:
                    yield parts
                    parts = []
                parts.append((kind, said, []))
            elif parts:
                parts[-1][2].append(line)
    if parts:
        yield parts
