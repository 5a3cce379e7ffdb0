"""The crates of a repository and what they use, as crates.txt says: a line "NAME: LIBRARY .." for each."""


def uses_in(file):
    """Each crate of a crates.txt, with the crates in it that it names; other libraries are the toolchain's."""
    with open(file, encoding="ascii") as lines:
        named = dict(line.split(":", 1) for line in lines)
    return {crate: {it for it in libraries.split() if it in named} for crate, libraries in named.items()}


def below(crate, uses):
    """All crates that a crate uses, and those that they use."""
    return uses[crate].union(*(below(it, uses) for it in uses[crate]))
