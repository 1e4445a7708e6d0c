#!/usr/bin/env python3
"""Four programs in supersteps: bodies.py rod|life|search|ranks THREADS [report]. Heat in a rod, the game of life, a search in a graph,
and the ranks of its nodes; each task has a block of cells. The output is that of crates/example_bodies; with `report`, the report of
the run. Python's tasks run on one thread, whatever THREADS says. BSP_LIBRARY names the library."""
import sys

from bsp_steps import Steps

WIDTH = 512


def rod(task, first, end):
    """A cell becomes the mean of its own value, twice, and its neighbours'."""
    while True:
        cells = task["rod"][first - 1 : end + 1].tolist()
        for place in range(1, end - first + 1):
            task.put("rod", first + place - 1, (cells[place - 1] + cells[place + 1] + 2 * cells[place]) // 4)
        if task.step == 999:
            return
        yield


def life(task, first, end):
    """The game of life. A cell that stays as it is needs no put."""
    none = [0] * (WIDTH + 2)
    while True:
        board = task["board"]
        rows = [[0, *board[row * WIDTH : (row + 1) * WIDTH].tolist(), 0] if 0 <= row < WIDTH else none for row in range(first - 1, end + 1)]
        for row in range(1, end - first + 1):
            above, own, below = rows[row - 1 : row + 2]
            if not any(above) and not any(own) and not any(below):
                continue
            for column in range(1, WIDTH + 1):
                around = sum(above[column - 1 : column + 2]) + sum(below[column - 1 : column + 2]) + own[column - 1] + own[column + 1]
                lives = int(around == 3 or around == 2 and own[column] == 1)
                if lives != own[column]:
                    task.put("board", (first + row - 1) * WIDTH + column - 1, lives)
        if task.step == 29:
            return
        yield


def neighbours(node, nodes):
    return (2 * node + 1) % nodes, (3 * node + 7) % nodes


def search(task, first, end):
    """Distances, -1 where no way is known, and in how many supersteps new nodes were found."""
    while True:
        distances, now, found = task["distances"], task.step, False
        for place, distance in enumerate(distances[first:end].tolist()):
            if distance == now:
                for to in neighbours(first + place, len(distances)):
                    if distances[to] == -1:
                        task.put("distances", to, now + 1)
                        found = True
        if found:
            task.put("rounds", 0, now + 1)
        if now and task["rounds"][0] != now:
            return
        yield


def ranks(task, first, end):
    """In one superstep nodes add to the sums of their neighbours, in the next each takes 85 in a hundred of its sum."""
    while True:
        for node in range(first, end):
            if task.step % 2 == 0:
                for to in neighbours(node, len(task["ranks"])):
                    task.add("sums", to, task["ranks"][node] // 2)
            else:
                task.put("ranks", node, task["sums"][node] // 100 * 85 + 150000000)
                task.put("sums", node, 0)
        if task.step == 39:
            return
        yield


def cut(body, count, size, first=0):
    return [(body, first + place * size, first + (place + 1) * size) for place in range(count)]


def board():
    cells = [0] * WIDTH**2
    for place in 130817, 130818, 131328, 131329, 131841:
        cells[place] = 1
    return cells


PROGRAMS = {
    "rod": (lambda: {"rod": [10**12] + [0] * 4095}, cut(rod, 46, 89, 1), lambda it: f"{it.steps} supersteps, cells {it.arrays['rod'][10]} {it.arrays['rod'][70]}"),
    "life": (lambda: {"board": board()}, cut(life, 16, 32), lambda it: f"{sum(map(bool, it.arrays['board']))} cells live after {it.steps} supersteps"),
    "search": (
        lambda: {"distances": [0] + [-1] * 99999, "rounds": [0]},
        cut(search, 20, 5000),
        lambda it: f"{it.steps} supersteps, {sum(d >= 0 for d in it.arrays['distances'])} nodes reached, the last ones at distance {it.arrays['rounds'][0]}",
    ),
    "ranks": (lambda: {"ranks": [10**9] * 1000, "sums": [0] * 1000}, cut(ranks, 10, 100), lambda it: "{0} {1} {7}".format(*it.arrays["ranks"])),
}


def main():
    name = sys.argv[1]
    arrays, tasks, line = PROGRAMS[name]
    report = Steps(arrays(), tasks, most=len(tasks), limit=10000).run()
    print(report.text if "report" in sys.argv else f"{name}: {line(report)}", end="" if "report" in sys.argv else "\n")
    return report.status != "ended"


sys.exit(main())
