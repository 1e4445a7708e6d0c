#!/usr/bin/env python3
"""A thousand random runs of bsp_steps.py, each beside a model of supersteps that is written here. BSP_LIBRARY names the library."""
import random
import sys

from bsp_steps import Steps

CELLS, MOST, LIMIT = 6, 30, 12
MOST_VALUE = 2**63 - 1


def plan(seed, calm, path, step, arrays):
    """What the task of this path does in this superstep: puts, prints, how many tasks it spawns, and how it ends."""
    r = random.Random(f"{seed} {path} {step}")
    puts = []
    for _ in range(r.randrange(4)):
        array, index, read = r.randrange(2), r.randrange(CELLS), arrays[r.randrange(2)][r.randrange(CELLS)]
        value = r.randrange(-9, 9) * MOST_VALUE // 9 if r.random() < 0.1 else read // 3 + r.randrange(-99, 99)
        if not calm and r.random() < 0.003:
            index += CELLS
        puts.append((r.random() < 0.4, array, index, value))
    prints = [arrays[0][r.randrange(CELLS)] for _ in range(r.randrange(3))]
    spawns = 0 if r.random() < 0.75 else r.randrange(1, 3)
    ending = 0 if r.random() < 0.8 else 1
    if not calm and r.random() < 0.005:
        ending = r.randrange(16, 256)
    return puts, prints, spawns, ending


def body(task, seed, calm):
    while True:
        puts, prints, spawns, ending = plan(seed, calm, task.path, task.step, [task["a"], task["b"]])
        for adds, array, index, value in puts:
            (task.add if adds else task.put)("ab"[array], index, value)
        for value in prints:
            task.print(value)
        for _ in range(spawns):
            task.spawn(body, seed, calm)
        if ending > 1:
            task.fail(ending)
        if ending:
            return
        yield


def landed(arrays, tasks):
    """The arrays after all puts, or the path of the first task with a sum that doesn't fit."""
    arrays = [list(it) for it in arrays]
    for path, (puts, _, _, _) in tasks:
        for adds, array, index, value in puts:
            value += arrays[array][index] * adds
            if not -MOST_VALUE - 1 <= value <= MOST_VALUE:
                return None, path
            arrays[array][index] = value
    return arrays, None


def own_fault(path, left):
    puts, _, spawns, ending = left
    if ending > 1:
        return ending
    if any(index >= CELLS for _, _, index, _ in puts):
        return 3
    return 5 if spawns and len(path) == 8 else None


def model(seed, calm, starts):
    """The status, supersteps, prints, arrays and fault of the run."""
    arrays, live, prints, records = [[0] * CELLS, [0] * CELLS], {(i,): 0 for i in range(starts)}, [], []
    for step in range(LIMIT):
        if not live:
            return "ended", records, prints, arrays, None
        tasks = [(path, plan(seed, calm, path, step, arrays)) for path in sorted(live)]
        for path, left in tasks:
            code = own_fault(path, left)
            if code:
                return "fault", records, prints, arrays, (code, step, path)
        spawned = sum(left[2] for _, left in tasks)
        stopped = sum(left[3] for _, left in tasks)
        if len(live) + spawned - stopped > MOST:
            return "fault", records, prints, arrays, (7, step, None)
        after, path = landed(arrays, tasks)
        if path:
            return "fault", records, prints, arrays, (8, step, path)
        records.append((step, len(live) + spawned, stopped, spawned))
        prints += [(step, path, value) for path, left in tasks for value in left[1]]
        for path, (_, _, count, ending) in tasks:
            for _ in range(count):
                live[(*path, live[path])] = 0
                live[path] += 1
            if ending:
                del live[path]
        arrays = after
    return "limit" if live else "ended", records, prints, arrays, None


def main():
    ends, wrong = {}, 0
    for seed in range(1000):
        calm, starts = seed % 2 == 0, 1 + seed % 5
        report = Steps({"a": [0] * CELLS, "b": [0] * CELLS}, [(body, seed, calm)] * starts, most=MOST, limit=LIMIT).run()
        fault = report.fault and (report.fault.code, report.fault.step, report.fault.path)
        told = report.status, [tuple(it) for it in report.supersteps], [tuple(it) for it in report.prints], list(report.arrays.values()), fault
        wrong += told != model(seed, calm, starts)
        end = report.status if not fault else f"fault {fault[0]}" if fault[0] < 16 else "own fault"
        ends[end] = ends.get(end, 0) + 1
    print("1000 random runs beside a model:", ", ".join(f"{count} {end}" for end, count in sorted(ends.items())) + f"; {wrong} wrong")
    return wrong


sys.exit(min(main(), 1))
