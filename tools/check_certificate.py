#!/usr/bin/env python3
"""check_certificate.py GAME CERTIFICATE: checks who wins a parity game. It prints `certified`, or what is wrong with which vertex.

GAME: `parity N;`, then for each vertex `vertex priority owner successors "name";`. Player 0 wins an infinite play where the
greatest priority that occurs infinitely often is even, player 1 where it is odd.
CERTIFICATE: `paritysol N;`, then for each vertex `vertex winner strategy;`, with a strategy exactly where the winner moves.

An edge is kept where the loser moves, or the strategy names it. If no kept edge leaves its winner's region, and no cycle of kept
edges has a greatest priority of the loser's parity, then the winner of a vertex wins each play from there by that strategy."""
import re
import sys

GAME = re.compile(r'\s*(\d+)\s+(\d+)\s+([01])\s+(\d+(?:\s*,\s*\d+)*)\s*(?:"[^"]*")?\s*;')
CERTIFICATE = re.compile(r"\s*(\d+)\s+([01])(?:\s+(\d+))?\s*;")


def lines(path, head, form):
    """The vertices of a text, each with what stands behind its number."""
    text = open(path, encoding="utf-8").read()
    first = re.match(rf"\s*{head}\s+\d+\s*;", text) or sys.exit(f"{path} doesn't begin with `{head} N;`")
    place, found = first.end(), {}
    while line := form.match(text, place):
        vertex, place = int(line[1]), line.end()
        if vertex in found:
            sys.exit(f"vertex {vertex} has two lines in {path}")
        found[vertex] = line.groups()[1:]
    return sys.exit(f"{path}: no line is {text[place:].strip()[:20]!r}") if text[place:].strip() else found


def components(vertices, edges):
    """The strongly connected components of a graph (Tarjan 1972), without recursion."""
    order, low, path, done = {}, {}, [], set()
    for root in vertices:
        walk = [] if root in order else [(root, iter(edges(root)))]
        while walk:
            v, rest = walk[-1]
            if v not in order:
                order[v] = low[v] = len(path)
                path.append(v)
            u = next((u for u in rest if u not in done), None)
            if u in order:
                low[v] = min(low[v], order[u])
            elif u is not None:
                walk.append((u, iter(edges(u))))
            else:
                walk.pop()
                if walk:
                    low[walk[-1][0]] = min(low[walk[-1][0]], low[v])
                if low[v] == order[v]:
                    yield path[order[v] :]
                    done.update(path[order[v] :])
                    del path[order[v] :]


def main(game_path, certificate_path):
    game, certificate = lines(game_path, "parity", GAME), lines(certificate_path, "paritysol", CERTIFICATE)
    for v in game.keys() ^ certificate.keys():
        sys.exit(f"vertex {v} has a line in one of the texts alone")
    priority, winner, kept = {v: int(game[v][0]) for v in game}, {v: int(certificate[v][0]) for v in game}, {}
    for v, (_, owner, successors) in game.items():
        strategy, kept[v] = certificate[v][1], [int(u) for u in successors.split(",")]
        if (strategy is not None) != (int(owner) == winner[v]):
            sys.exit(f"vertex {v} is {owner}'s and won by {winner[v]}, with the strategy {strategy}")
        if strategy is not None and int(strategy) not in kept[v]:
            sys.exit(f"vertex {v} has no successor {strategy}")
        kept[v] = kept[v] if strategy is None else [int(strategy)]
        if leaving := [u for u in kept[v] if winner.get(u) != winner[v]]:
            sys.exit(f"vertex {v} is won by {winner[v]}, and a kept edge leads to {leaving[0]}")
    for highest in sorted(set(priority.values()), reverse=True):
        below = {v for v in game if priority[v] <= highest and winner[v] != highest % 2}
        for component in components(below, lambda v: [u for u in kept[v] if u in below]):
            for v in component:
                if priority[v] == highest and (len(component) > 1 or v in kept[v]):
                    sys.exit(f"vertex {v} is won by {winner[v]}, and on a cycle with greatest priority {highest}")
    print("certified")


if __name__ == "__main__":
    main(*sys.argv[1:])
