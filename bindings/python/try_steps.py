#!/usr/bin/env python3
"""Calls of bsp_steps.py that are refused, that are over at once, or that run tasks elsewhere. BSP_LIBRARY names the library."""
import array
import pickle
import sys

import bsp
from bsp_steps import Deed, Steps, StepsError

tried = wrong = 0


def want(holds, what):
    global tried, wrong
    tried += 1
    if not holds:
        wrong += 1
        print(f"WRONG: {what}", flush=True)


def raised(kind, call, *words, **named):
    try:
        call(*words, **named)
    except kind as error:
        return error
    return None


def idle(task):
    yield


def does(call):
    """A run of one task that does this in its first superstep."""

    def body(task):
        call(task)
        yield

    return Steps({"a": [1, 2, 3]}, [body])


def try_numbers():
    for value in (2**63, -(2**63) - 1):
        want(raised(OverflowError, Steps, {"a": [value]}, []), f"the cell {value}")
        for call in ("put", "add"):
            error = raised(OverflowError, does(lambda task: getattr(task, call)("a", 1, value)).step)
            want(error and f"a[1] = {value}" in str(error), f"{call} of {value}")
        want(raised(OverflowError, does(lambda task: task.print(value)).step), f"a print of {value}")
        want(raised(OverflowError, does(lambda task: task.put_row("a", 1, [1, value])).step), f"a row with {value}")
    for index in (-1, 2**32):
        want("a[" in str(raised(OverflowError, does(lambda task: task.put("a", index, 1)).step)), f"the index {index}")
        want(raised(OverflowError, does(lambda task: task.put_row("a", index, [1])).step), f"the first index {index}")
    want(raised(OverflowError, does(lambda task: task.put_row("a", 2**32 - 1, [1, 2])).step), "a row past the last number")
    want("a[1.5] = 2" in str(raised(TypeError, does(lambda task: task.put("a", 1.5, 2)).step)), "an index that is no integer")
    want("a[1] = 2.5" in str(raised(TypeError, does(lambda task: task.add("a", 1, 2.5)).step)), "a value that is no integer")
    want(raised(TypeError, does(lambda task: task.print("7")).step) and raised(TypeError, Steps, {"a": [1.0]}, []), "no integers")
    want(raised(KeyError, does(lambda task: task.put("b", 1, 2)).step), "no such array")
    for named in ({"most": -1}, {"most": 2**32}, {"limit": -1}, {"limit": 2**32}):
        want(raised(OverflowError, Steps, {}, [idle], **named), named)
    want(raised(TypeError, Steps, {}, [idle], most=1.5) and raised(StepsError, Steps, {}, [idle], most=2**31).status == 5, "most")
    for number in (0, 15, 256, 2**32 + 16):
        want(raised(StepsError, does(lambda task: task.fail(number)).step).status == 11, f"fail({number})")


def try_phasers():
    phaser = bsp.Phaser(1)
    for call, *words in [
        (bsp.Phaser, 2**64 + 3), (phaser.register, 2**64 + 1), (phaser.register, -(2**63) - 1), (bsp.Phaser, 1, -1), (bsp.Phaser, 1, 2**32),
        (phaser.wait, 2**32 + 5), (phaser.wait, 2**31), (bsp.Phaser.place, bytearray(8), 2**64), (bsp.Phaser.on, bytearray(8), 0, -1),
    ]:
        want(raised(OverflowError, call, *words), f"{call.__name__} {words}")
    want(raised(TypeError, bsp.Phaser, 1.5) and raised(TypeError, phaser.wait, 0.5) and raised(TypeError, bsp.run, "bsp 1", 1.5), "no integers")
    want((phaser.parties, phaser.phase) == (1, 0), "nothing changed")


def try_arrays():
    for name in ("", "A", "a b", "a b\nended 7", " a", "end", "\u00e9", "\ud800", "abcdefghijklmnopq"):
        want(raised(StepsError, Steps, {"a": [1], name: [1]}, [idle]).status == 14, f"the name {name!r}")
    for cells in ([1, 2], (1, 2), range(1, 3), array.array("q", [1, 2]), array.array("h", [1, 2]), memoryview(array.array("q", [0, 1, 2]))[1:]):
        want(Steps({"a": cells}, []).report().arrays == {"a": [1, 2]}, cells)
    for row in ([8, 9], array.array("q", [8, 9]), memoryview(array.array("q", [8, 0, 9, 0]))[::2], range(8, 10)):
        run = does(lambda task: (task.put("a", 1, 5), task.put_row("a", 1, row), task.add("a", 2, 1)))
        want(run.step() is None and run.arrays["a"].tolist() == [1, 8, 10], row)
    run = does(lambda task: task.put_row("a", 3, array.array("q")))
    want(run.step() is None and run.arrays["a"].tolist() == [1, 2, 3], "an empty row")
    want(does(lambda task: task.put_row("a", 2, [1, 2])).run().fault.code == 3, "a row past the last cell")


def try_ends():
    for tasks, limit, status in [([], 9, "ended"), ([idle, idle], 0, "limit"), ([], 0, "ended")]:
        run = Steps({"a": [1]}, tasks, limit=limit)
        want(raised(StepsError, run.step).status == 12, "a step of a run that is over")
        want(run.run().text == run.report().text == f"array a 1\n{status} 0\n", f"{status} at once")
    want(raised(StepsError, Steps({}, [idle]).report).status == 13, "a report of a run that goes on")

    def plain(task):
        task.put("a", 0, 1)

    for function in (plain, lambda task: None, lambda task: [1]):
        want("is a function without `yield`" in str(raised(TypeError, Steps, {"a": [1]}, [function])), function)
    want("'plain'" in str(raised(TypeError, does(lambda task: task.spawn(plain)).step)), "a spawn of a plain function")
    want(Steps({}, [lambda task: idle(task)]).run().status == "ended", "a function that returns a generator")


def counts(task, own):
    for _ in range(3):
        task.add("a", own, 1 + own)
        if own == 0 and task.step == 1:
            task.spawn(counts, 2)
        yield
    task.print(task["a"][own])


def try_engines():
    """A run whose tasks another run of the same tasks runs, by deeds that were pickled."""
    begins = {"a": [0] * 3}, [(counts, 0), (counts, 1)]
    runs, copies = Steps(*begins), Steps(*begins)
    sent = []

    def here(tasks):
        deeds = Steps.segments(runs, tasks)
        sent.append(pickle.dumps(deeds))
        return deeds

    runs.segments = here
    copies.segments = lambda tasks: pickle.loads(sent.pop())
    while runs.step() is None:
        copies.step()
    copies.step()
    want(runs.report() == copies.report() == Steps(*begins).run(), "deeds from elsewhere")
    want(runs.sum() == copies.sum() != Steps(*begins).sum(), "their sum")
    want(copies.report().prints[0].value == 3, "what they did")
    copies = Steps(*begins)
    copies.segments = lambda tasks: []
    want(raised(StepsError, copies.step).status == 11, "too few deeds")
    copies = Steps(*begins)
    copies.segments = lambda tasks: [Deed(bytes([0, 1, 0, 0]), []), Deed(bytes([4, 0, 0]), [])]
    error = raised(StepsError, copies.step)
    want(error.status == 15 and "task 1 can't be read at its byte 0" in str(error) and str(pickle.loads(pickle.dumps(error))) == str(error), "no deed")


def main():
    try_numbers()
    try_phasers()
    try_arrays()
    try_ends()
    try_engines()
    print(f"{tried} tried, {wrong} wrong")
    return wrong


sys.exit(bool(main()))
