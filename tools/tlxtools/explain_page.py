"""A page that explains a fault: one HTML file, with no script, and no file or address from elsewhere. It has the sections of the explanation,
and a picture of the beats before the fault by link and time. For tools/explain."""

import html

from tlxtools.explanation import sections, writers_of
from tlxtools.story import ANSWERS, NAMES

STYLE = """
body { font: 14px/1.4 sans-serif; margin: 2em }
h2 { margin-top: 1.5em }
table { border-collapse: collapse }
td { border: 1px solid #ccc; padding: .15em .5em; white-space: pre-wrap }
.verdict { font-weight: bold }
svg { font: 11px sans-serif }
.beats { display: flex }
.beats svg { flex: none }
.times { overflow-x: auto; direction: rtl }
.times svg { direction: ltr }
rect { fill: #e8e8e8; stroke: #999 }
rect.request { fill: #bcd6f2 }
rect.writer { fill: #bfe3c4 }
rect.fault { fill: #f6b6ae }
path { stroke: #999; fill: none }
"""
# What a color says of a beat, in the order in which they are told.
KINDS = (("fault", "the beat of the fault"), ("request", "its request"), ("writer", "a request that wrote a byte"), ("other", "another beat"))
LEFT, WIDE, HIGH = 90, 130, 30
# So many times are shown.
MOST_TIMES = 24


def word_of(row, message):
    """What a beat asks or answers, in one word; an opcode that says nothing is told by its number."""
    if row.channel == "D":
        return ANSWERS.get(row.number(3), f"opcode {row.words[3]}")
    return message.name if message else NAMES.get((row.number(3), row.number(4)), f"opcode {row.words[3]}")


def beat_of(row, message, kind, names):
    """A beat for the picture: its place, its words and its color."""
    return {"time": row.time, "lane": (row.link[0], int(row.link[1:]), row.channel), "name": names[row.link],
            "text": f"{word_of(row, message)} s{row.words[6]}", "title": f"line {row.line}, time {row.time}: {','.join(row.words[1:])}",
            "kind": kind, "message": message and id(message)}


def beats_of(explanation, explainer):
    """The beats of the picture by rising time: the last ones before the fault, the fault, and the writers before these."""
    story, names = explainer.story, explainer.system.names
    writers = {line for writer in writers_of(explanation) for line in writer["asked"]}
    request = set((explanation.get("request") or {}).get("asked", []))
    seen = {row.line for row, _ in story.recent}
    beats = [beat_of(row, message, "request" if row.line in request else "writer" if row.line in writers else "other", names)
             for row, message in story.recent if row is not story.last]
    older = writers - seen
    for message in (message for writes in story.writes.values() for message in writes if older):
        beats += [beat_of(row, message, "writer", names) for row in message.asked if row.line in older]
    if story.last:
        beats.append(beat_of(story.last, explainer.asked_by(story.last), "fault", names))
    return latest(sorted(beats, key=lambda beat: beat["time"]))


def latest(beats):
    """The beats of the last times, and those of the request and the writers."""
    times = sorted({beat["time"] for beat in beats})[-MOST_TIMES:]
    return [beat for beat in beats if beat["kind"] != "other" or beat["time"] in times]


def picture(beats):
    """The beats as boxes: a lane for each channel of a link, and a column for each time with a beat. A line joins those of a message. The names of
    the lanes stay in view. The columns go from right to left for the browser, so that a wide picture opens at its end, where the fault is."""
    times = {time: place for place, time in enumerate(sorted({beat["time"] for beat in beats}))}
    lanes = {lane: place for place, lane in enumerate(sorted({beat["lane"] for beat in beats}))}
    names = {beat["lane"]: f"{beat['name']} {beat['lane'][2]}" for beat in beats}
    height = HIGH * (len(lanes) + 1) + 4
    heads = [f'<text x="4" y="{HIGH * place + HIGH + 19}">{html.escape(names[lane])}</text>' for lane, place in lanes.items()]
    parts = [f'<text x="{WIDE * place + 4}" y="19">{time}</text>' for time, place in times.items()]
    corners = [(WIDE * times[beat["time"]], HIGH * lanes[beat["lane"]] + HIGH) for beat in beats]
    parts += [joint(points) for points in paths_of(beats, corners)]
    for beat, (left, top) in zip(beats, corners):
        parts.append(f'<g><title>{html.escape(beat["title"])}</title><rect class="{beat["kind"]}" x="{left + 2}" y="{top + 4}" '
                     f'width="{WIDE - 4}" height="{HIGH - 8}"/><text x="{left + 6}" y="{top + 19}">{html.escape(beat["text"])}</text></g>')
    columns = drawing(WIDE * len(times), height, parts)
    return f'<div class="beats">{drawing(LEFT, height, heads)}<div class="times">{columns}</div></div>'


def drawing(width, height, parts):
    return f'<svg width="{width}" height="{height}" viewBox="0 0 {width} {height}" role="img">{"".join(parts)}</svg>'


def paths_of(beats, corners):
    """The places of the beats of each message that has several."""
    found = {}
    for beat, corner in zip(beats, corners):
        if beat["message"] is not None:
            found.setdefault(beat["message"], []).append(corner)
    return [points for points in found.values() if len(points) > 1]


def joint(points):
    """A line through the middle of boxes."""
    return f'<path d="M{" ".join(f"{left + WIDE // 2} {top + HIGH // 2}" for left, top in points)}"/>'


def legend():
    items = "".join(f'<svg width="18" height="14"><rect class="{kind}" x="1" y="1" width="14" height="12"/></svg>{text} &nbsp; '
                    for kind, text in KINDS)
    return f"<p>{items}</p>"


def table(title, lines):
    rows = "".join(f"<tr><td>{html.escape(line)}</td></tr>" for line in lines)
    return f"<h2>{html.escape(title)}</h2><table>{rows}</table>"


def page_of(verdict, explanation, explainer):
    """The page of a verdict; of a lawful capture it has the verdict alone."""
    parts = [f'<p class="verdict">{html.escape(verdict)}</p>']
    beats = beats_of(explanation, explainer) if explainer else []
    if beats:
        parts += ["<h2>beats</h2>", legend(), picture(beats)]
    parts += [table(title, lines) for title, lines in sections(explanation)]
    head = f'<meta charset="utf-8"><title>tlcheck</title><style>{STYLE}</style>'
    return f'<!DOCTYPE html><html lang="en">{head}<h1>tlcheck</h1>{"".join(parts)}</html>\n'
