"""Links that a dump has as two vectors: the packed structs of requests and of replies, whose members it does not name. For tools/draft.

A vector's width tells the layout if it is that of OpenTitan's structs on a bus of 4 bytes, with their user bits or without.
"""

from tlxtools.dump import Slice

# The marks of the struct with the requests, and of the one with the replies.
PARTS = (("_i", "_o"), ("_o", "_i"), ("h2d", "d2h"), ("req", "rsp"))

# The members of the struct of requests and of that of replies, the highest first, with how many bits each has. What has no name is no signal
# of a link.
REQUEST = (("a_valid", 1), ("a_opcode", 3), ("a_param", 3), ("a_size", 2), ("a_source", 8), ("a_address", 32), ("a_mask", 4), ("a_data", 32),
           ("", None), ("d_ready", 1))
REPLY = (("d_valid", 1), ("d_opcode", 3), ("d_param", 3), ("d_size", 2), ("d_source", 8), ("", 1), ("d_data", 32), ("", None),
         ("d_denied", 1), ("a_ready", 1))
# The widths of both, with the user bits of each.
LAYOUTS = {(86, 52): (0, 0), (109, 66): (23, 14)}
# The fewest bits of a vector that may be such a struct.
FEWEST = 40


def members(name, layout, user, variables):
    """The names of the members of a vector, which count as signals from here on."""
    identifier, width = variables.named[name]
    found, high = {}, width - 1
    for signal, bits in layout:
        bits = user if bits is None else bits
        low = high - bits + 1
        if signal:
            found[signal] = f"{name}[{high}:{low}]" if bits > 1 else f"{name}[{high}]"
            variables.named[found[signal]] = Slice(identifier, width, high, low), bits
        high = low - 1
    return found


def partners(prefix):
    """The prefixes that the replies of a struct of requests may have, each with the name that both share."""
    for mark, other in PARTS:
        head, found, tail = prefix.rpartition(mark)
        if found and not tail[:1].isalnum():
            yield head + other + tail, head


def vectors_of(variables):
    """The pairs of vectors whose names say that they are two structs of a link: both names, the one that they share, and their widths."""
    for name, (_, bits) in [*variables.named.items()]:
        for other, called in partners(name):
            wide = variables.named.get(other, (None, 0))[1]
            if min(bits, wide) >= FEWEST and not {name, other} & variables.twice:
                yield name, other, called, (bits, wide)


def structs_of(variables):
    """The links that stand in two vectors of a known layout: the name of the vector of requests, the name of the link, and its signals."""
    for name, other, called, widths in vectors_of(variables):
        if widths in LAYOUTS and {name, other} <= variables.vectors:
            request, reply = LAYOUTS[widths]
            yield name, called, {**members(name, REQUEST, request, variables), **members(other, REPLY, reply, variables)}


def unknown_structs(variables, top):
    """The pairs of vectors that are called so, and whose layout is not known: names and widths. Of one net the outermost is taken."""
    found = {}
    for name, other, called, widths in sorted(vectors_of(variables), key=lambda pair: pair[0].count(".")):
        is_called = "tl" in f"{called}{name}".rpartition(".")[2].lower() or name.endswith("h2d")
        inside = top is None or name.startswith(top + ".")
        if is_called and inside and widths not in LAYOUTS and widths[::-1] not in LAYOUTS and not name.endswith("_o"):
            found.setdefault(tuple(variables.named[one][0] for one in (name, other)), (name, other, widths))
    return found.values()
