#!/usr/bin/env python3
"""Turns what pbsolve writes, on standard input, into a picture: a graph for Graphviz or, with `--chart`, a sequence chart as SVG.

    pbsolve explain < TEXT | python3 tools/picture.py | dot -Tsvg > FILE.svg                        evidence
    pbsolve game < TEXT | python3 tools/picture.py | dot -Tsvg > FILE.svg                           a game, which is to be small
    pbsolve why --property NAME --lines < MODEL | python3 tools/picture.py | dot -Tsvg > FILE.svg   a run, or why a property is true
    pbsolve why --property NAME --lines < MODEL | python3 tools/picture.py --chart > FILE.svg       a run, as a sequence chart

Graph of evidence: a node for each instance, with edges to those that it rests on, each with its step; the initial one has a double
border, and what lies on cycles is red (of a lasso: the run that goes round). With `explain --places` each edge has the place of its
call. Graph of a game: a diamond where player 0 moves, a box where player 1 does, each with its name, if it has one, and its priority.
Chart of a run: from the top down a box for each step, in the column of the value of its first own variable, as a process's number;
a step without own variables goes over all columns. A run that goes round has red boxes there, and a line back.

What it can't draw it refuses, with a sentence on standard error and status 1."""
import html
import re
import sys

from check_certificate import GAME, components

HEAD = """digraph picture {
  rankdir=LR; nodesep=0.2; ranksep=0.3;
  node [shape=box, style="rounded,filled", fillcolor=white, fontname=Helvetica, fontsize=11, height=0.3];
  edge [arrowsize=0.6];"""
VERDICT = re.compile(r"\S+ (true|false|unknown)$|cut \d+$|\S+ refused [A-Z]\d\d$")
LINE = re.compile(r"(\S+) (?:true|false):((?: \S+)*)$")
# Of a chart: pixels to a letter, between rows, around and in boxes; letters to a line of a state.
LETTER, ROW, MARGIN, BOX, STATE = 7, 34, 50, 24, 60


def refuse(words):
    sys.exit(f"tools/picture.py: {words}")


def quoted(text):
    return '"' + text.replace("\\", "\\\\").replace('"', '\\"') + '"'


def proof_graph(text):
    """What each instance rests on, each with its call or step: `X(0) false: Y(1) Y(2)@3:8`, the initial instance first."""
    parts = []
    for number, line in enumerate(text.splitlines(), 1):
        if VERDICT.match(line):
            parts.append({})
        elif re.match(r"1 \S+: ", line):
            refuse("these lines of `why` are for readers: `why --property NAME --lines` writes those that can be drawn")
        elif not parts or not (found := LINE.match(line)):
            refuse(f"line {number} is neither a game nor evidence: {line[:40]!r}")
        else:
            parts[-1][found[1]] = dict(other.partition("@")[::2] for other in found[2].split())
    with_lines = [part for part in parts if part]
    if not with_lines:
        refuse("there is no evidence to draw; `why --property NAME --lines` has some also where the property is true")
    if len(with_lines) > 1:
        refuse(f"this is evidence for {len(with_lines)} properties: choose one by `--property NAME`")
    rests = with_lines[0]
    for others in rests.values():
        for other in others:
            if other not in rests and other != "cut":
                refuse(f"the evidence is cut short: {other} has no line")
    return rests


def cycles(rests):
    """Of each instance that lies on a cycle a name for that cycle."""
    around = {}
    for component in components(rests, lambda name: [other for other in rests[name] if other in rests]):
        if len(component) > 1 or component[0] in rests[component[0]]:
            around.update((name, component[0]) for name in component)
    return around


def evidence(text):
    """The lines of a graph for a proof graph."""
    rests = proof_graph(text)
    around = cycles(rests)
    for place, name in enumerate(rests):
        marks = ["peripheries=2"] * (place == 0) + ["color=red"] * (name in around)
        yield f"{quoted(name)} [{', '.join(marks)}]"
        for other, call in rests[name].items():
            goes_round = name in around and around[name] == around.get(other)
            marks = ["color=red"] * goes_round + [f"label={quoted(call)}"] * bool(call)
            yield f"{quoted(name)} -> {quoted(other)}" + f" [{', '.join(marks)}]" * bool(marks)


def game(text):
    """The lines of a graph for `vertex priority owner successors "name";` of each vertex."""
    vertices = list(GAME.finditer(text, text.find(";") + 1))
    if not vertices or vertices[-1].end() != len(text.rstrip()):
        refuse("the game is cut short, or isn't one that `pbsolve game` writes")
    for line in vertices:
        vertex, priority, owner, successors = line.groups()
        name = re.search(r'"(.*)"', line[0], re.S)
        label = quoted(f"{name[1]}\n{priority}" if name else priority).replace("\n", "\\n")
        shape = 'shape=diamond, style="filled", margin=0' if owner == "0" else 'style="filled"'
        yield f"{vertex} [label={label}, {shape}]"
        for successor in successors.split(","):
            yield f"{vertex} -> {successor}"


def run(rests):
    """The steps of a run with whether each goes round, in order, what it ends with, and the first row that goes round, if any."""
    around, steps, rows, name = cycles(rests), [], {}, next(iter(rests))
    while name not in rows:
        rows[name] = len(steps)
        if len(rests[name]) > 1:
            refuse(f"a chart is of one run, and the lines branch at {name}: leave out --chart for a graph")
        if not rests[name]:
            return steps, state_of(name), None
        ((other, step),) = rests[name].items()
        if other == "cut":
            return steps, f"{state_of(name)}, and then outside the ranges", None
        if step or state_of(other) != state_of(name):
            steps.append((step or "by no step", name in around and other in around))
        name = other
    return steps, "", rows[name]


def state_of(name):
    """The values of an instance's state."""
    return name.partition("(")[2].removesuffix(")").replace(",", ", ")


def column_of(step):
    """The value of a step's first own variable, if it has one."""
    return step.partition("(")[2].removesuffix(")").split(",")[0]


def in_order(values):
    """Each value once: numbers by size, others as they come."""
    values = list(dict.fromkeys(values))
    return sorted(values, key=int) if all(re.fullmatch(r"-?\d+", value) for value in values) else values


def text_at(x, y, words, more=""):
    return f'<text x="{x:g}" y="{y:g}"{more}>{html.escape(words)}</text>'


def state_lines(y, words):
    """A state, in lines of at most so many letters, and where the next line goes."""
    lines = [""]
    for part in words.split(", "):
        if lines[-1] and len(lines[-1]) + len(part) > STATE:
            lines.append("")
        lines[-1] += f"{', ' * (lines[-1] != '')}{part}"
    return [text_at(MARGIN, y + 16 * place, line, ' text-anchor="start"') for place, line in enumerate(lines)], y + 16 * len(lines)


def chart(text):
    """A sequence chart of a run, as SVG."""
    if text.startswith("parity "):
        refuse("a chart is of a run, and this is a game: leave out --chart")
    rests = proof_graph(text)
    steps, end, back = run(rests)
    columns = in_order(column for step, _ in steps if (column := column_of(step)))
    if not columns:
        refuse("no step of this run has variables of its own, so that a chart has no columns: leave out --chart")
    wide = LETTER * max(len(word) for word in (*columns, *(step for step, _ in steps))) + BOX
    place = {column: MARGIN + wide * (k + 0.5) + 10 * k for k, column in enumerate(columns)}
    last = place[columns[-1]]
    parts, y = state_lines(20, state_of(next(iter(rests))))
    top, bottom = y + 20, y + 20 + ROW * len(steps)
    for column, x in place.items():
        parts.append(text_at(x, y + 10, column, ' font-weight="bold"'))
        parts.append(f'<line x1="{x:g}" y1="{top}" x2="{x:g}" y2="{bottom + 6}" stroke="grey"/>')
    for row, (step, goes_round) in enumerate(steps):
        x, width, color = place.get(column_of(step)), wide, "red" if goes_round else "black"
        if x is None:
            x, width = (place[columns[0]] + last) / 2, last - place[columns[0]] + wide
        parts.append(f'<rect x="{x - width / 2:g}" y="{top + ROW * row + 8}" width="{width:g}" height="24" rx="5" fill="white" stroke="{color}"/>')
        parts.append(text_at(x, top + ROW * row + 24, step))
    if back is not None:
        first, final = top + ROW * back + 20, top + ROW * len(steps) - 14
        parts.append(f'<path d="M {MARGIN - 4} {final} H 20 V {first} H {MARGIN - 4}" fill="none" stroke="red" marker-end="url(#head)"/>')
        parts.append(text_at(MARGIN, bottom + 22, "and so forever", ' text-anchor="start" fill="red"'))
    elif end:
        below, bottom = state_lines(bottom + 22, end)
        parts += below
    letters = max(len(re.sub("<[^>]*>", "", part)) for part in parts)
    size = f'width="{max(last + wide / 2, MARGIN + LETTER * letters) + 10:g}" height="{bottom + 34:g}"'
    arrow = '<marker id="head" viewBox="0 0 8 8" refX="7" refY="4" markerWidth="7" markerHeight="7" orient="auto"><path d="M 0 0 L 8 4 L 0 8 z" fill="red"/></marker>'
    fonts = 'font-family="Helvetica" font-size="12" text-anchor="middle"'
    return [f'<svg xmlns="http://www.w3.org/2000/svg" {size} {fonts}>', f"<defs>{arrow}</defs>", '<rect width="100%" height="100%" fill="white"/>', *parts, "</svg>"]


def main():
    if sys.argv[1:] not in ([], ["--chart"]):
        sys.exit(__doc__)
    text = sys.stdin.read()
    if not text:
        refuse("there is nothing to draw")
    if sys.argv[1:]:
        print(*chart(text), sep="\n")
    else:
        print(HEAD, *[f"  {line};" for line in (game if text.startswith("parity ") else evidence)(text)], "}", sep="\n")


main()
