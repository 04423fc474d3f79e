"""The text of scripts, as tools/stimulate and tools/shrink write them: the system, and the operations of each master."""

import json

from tlxtools.system_keys import described

# The keys of a port and of a master, and those of the whole system, in the order in which they are written.
PORT_KEYS, MASTER_KEYS = described("port"), described("master")
TOP_KEYS = tuple(key for key in described("") if key not in ("port", "master"))


def value_of(key, value):
    """A value as TOML has it: addresses in hexadecimal."""
    if key == "base":
        return f"{value:#x}"
    if key == "ranges":
        return "[" + ", ".join(f"[{base:#x}, {length}]" for base, length in value) + "]"
    if key == "sizes":
        return "{" + ", ".join(f" {group} = {list(pair)}" for group, pair in value.items()) + " }"
    if isinstance(value, dict):
        return "{" + ", ".join(f" {name} = {json.dumps(word)}" for name, word in value.items()) + " }"
    if isinstance(value, list) and any(isinstance(item, dict) for item in value):
        return "[" + ", ".join("{" + ",".join(f" {name} = {json.dumps(word)}" for name, word in item.items()) + " }" for item in value) + "]"
    # a string of JSON in ASCII is one of TOML, and so are numbers and flags
    return json.dumps(value)


def table_of(name, keys, values):
    """The lines of a table, without an empty reset."""
    return [f"[[{name}]]"] + [f"{key} = {value_of(key, values[key])}" for key in keys if key in values and values[key] != ""]


def text_of(system):
    """The text of a script or of a system file; `slots`, the keys of the whole system and the `ops` of a master are left out if the system has
    none."""
    lines = [f"{key} = {value_of(key, system[key])}" for key in ("slots", *TOP_KEYS) if key in system]
    for port in system.get("port", []):
        lines += ["", *table_of("port", PORT_KEYS, port)]
    for master in system["master"]:
        lines += ["", *table_of("master", MASTER_KEYS, master)]
        if "ops" in master:
            lines += ["ops = [", *(f"  {json.dumps(line)}," for line in master["ops"]), "]"]
    return "\n".join(lines).lstrip("\n") + "\n"
