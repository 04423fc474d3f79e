"""How messages, bytes and rows are spelled in an explanation. For tools/explain."""


def hexadecimal(data):
    """Bytes in the order of their addresses, as a verdict spells them."""
    return "".join("xx" if byte is None else f"{byte:02x}" for byte in data)


def spelled(data, spoiled):
    """The bytes of a request, each as a trace spells it: one that is not given, and one of which a corrupt beat tells nothing, are no digits."""
    return ["--" if byte is None else "xx" if place in spoiled else f"{byte:02x}" for place, byte in enumerate(data)]


def counted(number, what):
    return f"{number} {what}{'s' * (number != 1)}"


def bytes_of(size):
    """How many bytes a size stands for."""
    return counted(1 << size, "byte")


def place_of(rows):
    """The lines and the times of some rows."""
    first, last = rows[0], rows[-1]
    if first is last:
        return f"line {first.line}, time {first.time}"
    return f"lines {first.line} to {last.line}, times {first.time} to {last.time}"


def replied(answer, denied, data):
    """A reply as a verdict spells it: its opcode, whether it is denied, and its bytes if it has some."""
    return " ".join([answer] + ["denied"] * bool(denied) + [hexadecimal(data)] * bool(data))


def runs_text(places, spell=str):
    """Numbers of bytes as runs: "0 to 7, 12"; "none" if there are none."""
    runs = []
    for place in sorted(places):
        if runs and runs[-1][1] == place - 1:
            runs[-1][1] = place
        else:
            runs.append([place, place])
    return ", ".join(spell(first) if first == last else f"{spell(first)} to {spell(last)}" for first, last in runs) or "none"
