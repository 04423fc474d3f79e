"""The crates of the repository, as crates.txt lists them."""

import os

TOP = os.path.dirname(os.path.dirname(os.path.dirname(os.path.abspath(__file__))))


def crates():
    """Each crate, with the libraries that it names: the repository's and the kit's."""
    with open(os.path.join(TOP, "crates.txt"), encoding="utf-8") as lines:
        listed = [line.partition("#")[0].partition(":") for line in lines if ":" in line.partition("#")[0]]
    return {head.split()[0]: rest.split() for head, _, rest in listed}


def below(name, all_crates):
    """The crates that a crate stands on."""
    named = {other for other in all_crates[name] if other in all_crates}
    return named.union(*(below(other, all_crates) for other in named))


def ways(all_crates):
    """How many ways lead down from the crates to the crates below them, each crate itself a way. `rt` sums up the sources of a crate anew
    for each.
    """
    known = {}

    def down(name):
        if name not in known:
            known[name] = 1 + sum(down(other) for other in all_crates[name] if other in all_crates)
        return known[name]

    return sum(down(name) for name in all_crates)
