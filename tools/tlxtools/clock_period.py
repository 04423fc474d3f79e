"""How many units of time a clock has in a dump: how far the first two edges of the clock of a system file are from each other. For tools/latency."""

from tlxtools.dump import NoDump, steps_of, variables_of, words_of

# What a clock is before an edge, and behind it.
EDGES = {"rising": ("0", "1"), "falling": ("1", "0")}


def clocks_of(table):
    """The clocks of a system file, each with its edge: that at the top, and those of links."""
    links = [link for kind in ("port", "master") for link in table.get(kind, []) if "clock" in link]
    return {(each["clock"], each.get("edge", table.get("edge", "rising"))) for each in (table, *links) if "clock" in each}


def periods(steps, nets):
    """The distances of the first two edges of nets, each with its edge: of those that have two."""
    now, seen, left = {}, {}, {*nets}
    for time, changed in steps:
        for net, edge in [*left]:
            if (now.get(net), changed.get(net)) == EDGES[edge]:
                if (net, edge) in seen:
                    left.remove((net, edge))
                    yield time - seen[net, edge]
                seen.setdefault((net, edge), time)
        if not left:
            return
        now.update(changed)


def period_of(table, path):
    """The least period of a system's clocks in a dump, or None if none has two edges."""
    with open(path, encoding="utf-8", errors="replace", newline="") as file:
        words = words_of(file)
        try:
            named = variables_of(words).named
            nets = {(named[clock][0], edge) for clock, edge in clocks_of(table) if clock in named}
            return min(periods(steps_of(words, {net for net, _ in nets}), nets), default=None)
        except NoDump:
            return None
