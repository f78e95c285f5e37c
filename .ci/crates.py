"""What crates.txt says: which libraries each crate names."""

PROGRAM = "retro"


def read_crates():
    """Gives the libraries that each crate names, by its name."""
    with open("crates.txt", encoding="utf-8") as it:
        lines = [line.partition("#")[0].partition(":") for line in it]
    return {name.strip(): libraries.split() for name, colon, libraries in lines if colon}


def all_below(crate, crates):
    """Gives the libraries of the repository below a crate, each behind those that it names."""
    found = {}
    for name in crates[crate]:
        if name in crates:
            found.update(dict.fromkeys([*all_below(name, crates), name]))
    return list(found)
