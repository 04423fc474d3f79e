"""The pages that tools/reference writes: one for each crate, and one that lists them."""

import re

from tlxtools import markdown
from tlxtools.markdown import Anchors

WIDTH = 140
# The words of the language and of its library, which stand in every clause.
NAME = re.compile(r"[A-Za-z_][\w]*")


def escaped(text):
    """Text of a comment as Markdown shows it: what stands between backticks stays, and a name in brackets, with its path behind it or not, is one
    between backticks."""
    parts = re.split(r"(`[^`]*`)", re.sub(r"\[(`[^`\]]*`)\](?:\([\w:]*\))?", r"\1", text))
    return "".join(part if part.startswith("`") else re.sub(r"([*<>_\[\]|\\])", r"\\\1", part) for part in parts)


def paragraphs(lines):
    """The lines of a comment as paragraphs of Markdown. What is indented, or a list, stays as it is."""
    for block in re.split(r"\n\s*\n", "\n".join(lines).strip("\n")):
        if not block.strip():
            continue
        if re.match(r"\s*([-*|]|\d+\.) |    ", block) or "```" in block:
            yield block
        else:
            text = re.sub(r"(?m)^(#|[-+*] |\d+\. )", r"\\\1", "\n".join(wrapped(escaped(" ".join(block.split())))))
            yield text


def wrapped(text, front=""):
    return markdown.wrapped(text, WIDTH, front, len(front))


class Places:
    """Where each definition, type and call of each crate stands: the page, and the name by which a link finds it there."""

    def __init__(self, crates):
        self.at = {}
        for crate in crates:
            names = Anchors()
            for level, heading, name in headings_of(crate):
                anchor = names.next(heading)
                if name and (crate.name, name) not in self.at:
                    self.at[crate.name, name] = anchor

    def link(self, here, crate, name):
        """A link to a name, or the name alone if it has no place."""
        anchor = self.at.get((crate, name))
        if anchor is None:
            return ""
        return f"[`{name}`]({'' if crate == here else f'{crate}.md'}#{anchor})"


def parts_of(crate):
    """The items of a crate in the order of its page: those of lib.rt, and those of its modules with the names of these."""
    own = [item for item in crate.items if not re.match(r"[a-z_]+::", item.name)]
    return own, [item for item in crate.items if item not in own]


def headings_of(crate):
    """The headings of a page in their order: the level, the heading, and the name that stands there if there is one."""
    own, of_modules = parts_of(crate)
    yield 1, f"`{crate.name}`", ""
    if any(specs.definitions for specs in crate.specs):
        yield 2, "Definitions", ""
        for specs in crate.specs:
            if specs.definitions:
                yield 3, f"specs/{specs.name}.antt", ""
                yield from ((4, f"`{definition.name}`", definition.name) for definition in specs.definitions)
    for title, items in (("Types and calls", own), ("Laws and modules", of_modules)):
        if items:
            yield 2, title, ""
            for item in items:
                yield 4 if "::" in item.name and items is own else 3, f"`{item.name}`", item.name


def named_in(places, crate, text, taken, own):
    """Links to what a text names: definitions that its file takes from the crates of this repository, or that stand in its own crate."""
    links = []
    for word in dict.fromkeys(NAME.findall(re.sub(r"//.*|--.*", "", text))):
        owner, name = taken.get(word, (crate.name, word))
        if name != own and (owner != crate.name or word in taken or name != word or (crate.name, word) in places.at):
            link = places.link(crate.name, owner, name)
            if link and link not in links:
                links.append(link)
    return links


def entry(places, crate, level, heading, comment, text, links):
    """A heading with a comment, a text and links below it."""
    yield "#" * level + " " + heading
    yield from paragraphs(comment)
    yield f"```text\n{text}\n```" if level else ""
    if links:
        yield "\n".join(wrapped(f"Named here: {', '.join(links)}."))


def contents(places, crate):
    """What the page has, by files and kinds."""
    own, of_modules = parts_of(crate)
    for specs in crate.specs:
        if specs.definitions:
            links = [places.link(crate.name, crate.name, definition.name) for definition in specs.definitions]
            yield "\n".join(wrapped(f"**{specs.name}**: {', '.join(links)}", "- "))
    types = [item for item in own if "::" not in item.name]
    for title, items in (("Types and calls", types), ("Laws and modules", of_modules)):
        if items:
            links = [places.link(crate.name, crate.name, item.name) for item in items]
            yield "\n".join(wrapped(f"**{title}**: {', '.join(link for link in links if link)}", "- "))


def page_of(places, crate):
    """The text of a crate's page."""
    said = [f"# `{crate.name}`", *paragraphs(crate.page),
            f"Made by `tools/reference` from `crates/{crate.name}`. The definitions are those of `specs/`, the types and calls those that `lib.rt` exports."]
    listed = list(contents(places, crate))
    if listed:
        said += ["\n".join(listed)]
    handed_on = [link for owner, name in crate.handed_on if (link := places.link(crate.name, owner, name))]
    if handed_on:
        said += ["\n".join(wrapped(f"It hands on {', '.join(handed_on)}."))]
    if any(specs.definitions for specs in crate.specs):
        said.append("## Definitions")
    for specs in crate.specs:
        if specs.definitions:
            said += [f"### specs/{specs.name}.antt", *paragraphs(specs.comment)]
            for definition in specs.definitions:
                links = named_in(places, crate, definition.text, specs.taken, definition.name)
                said += entry(places, crate, 4, f"`{definition.name}`", definition.comment, definition.text, links)
    own, of_modules = parts_of(crate)
    for title, items in (("Types and calls", own), ("Laws and modules", of_modules)):
        if items:
            said.append(f"## {title}")
        for item in items:
            links = named_in(places, crate, item.text, item.taken, item.name)
            level = 4 if "::" in item.name and items is own else 3
            said += entry(places, crate, level, f"`{item.name}`", item.comment, item.text, links)
    return "\n\n".join(said) + "\n"


def index_of(families, crates, first=()):
    """The page that lists the pages: those that are of no crate, then by family, as crates.txt has them, each with the first sentence of
    its own page."""
    said = ["# Reference"]
    lines = [wrapped(f"[{name}]({name}): {' '.join(sentence.split())}", "- ") for name, sentence in first]
    if lines:
        said += ["## Formats and rules", "\n".join("\n".join(line) for line in lines), "## Definitions and calls"]
    made = ("Made by `tools/reference` from the sources: each crate's definitions, and the types and calls that it exports, with their contracts. "
            "[model.md](../design/model.md) says what they mean, [proved.md](../design/proved.md) has what is promised by which contract.")
    said.append("\n".join(wrapped(made)))
    for family, names in families:
        lines = [wrapped(f"[`{name}`]({name}.md): {first_sentence(crates[name].page)}", "- ") for name in names if name in crates]
        if lines:
            said += [f"## {family}", "\n".join("\n".join(line) for line in lines)]
    return "\n\n".join(said) + "\n"


def first_sentence(lines):
    text = " ".join(" ".join(lines).split("  ")[0].split())
    return escaped(re.split(r"(?<=[.:])\s", text)[0].rstrip(":.") + ".")
