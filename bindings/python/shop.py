#!/usr/bin/env python3
"""A shop, in supersteps: a door spawns customers, each is served for some supersteps, and goes. The output is that of
crates/example_bodies; with `report`, the report of the run. BSP_LIBRARY names the library."""
import sys

from bsp_steps import Steps, StepsError

CAME, WENT, TIME, OPEN = 0, 1, 2, 999


def customer(task, left):
    for _ in range(left - 1):
        task.add("shop", TIME, 1)
        yield
    task.add("shop", TIME, 1)
    task.add("shop", WENT, 1)


def door(task, state):
    while True:
        state = (state * 1664525 + 1013904223) % 2**32
        for _ in range(state >> 30):
            task.add("shop", CAME, 1)
            task.spawn(customer, 1 + (state >> 20) % 8)
        if task.step >= OPEN:
            return
        yield


def raises(kind, call, *words):
    try:
        call(*words)
    except kind:
        return True
    return False


def misused():
    """What is used wrongly says so, and nothing crashes."""
    tasks = []

    def keeps(task):
        tasks.append(task)
        task.put("a", 0, task["a"][1])
        yield
        task.print(task["a"][0])
        task.fail(20)

    run = Steps({"a": [1, 2], "b": []}, [keeps])
    right = [raises(StepsError, run.report), run.step() is None, raises(RuntimeError, tasks[0].put, "a", 0, 1)]
    view = run.arrays["a"]
    right += [view.tolist() == [2, 2], raises(TypeError, view.__setitem__, 0, 1), run.step() == "fault", raises(StepsError, run.step)]
    right += [run.report().text == "phase 0 parties 1 left 0 spawned 0\narray a 2 2\narray b\nfault 20 step 1 path 0\n"]
    del run, tasks[:]
    right += [view.tolist() == [2, 2]]

    def swap(task, other):
        task.put("a", 1 - other, task["a"][other])
        yield
        task.print(task["a"][1 - other])
        if task.path != (1 - other,):
            task.fail(99)

    right += [Steps({"a": [10, 20]}, [(swap, 1), (swap, 0)]).run().text == "phase 0 parties 2 left 0 spawned 0\nprint 1 0 20\nprint 1 1 10\nphase 1 parties 2 left 2 spawned 0\narray a 20 10\nended 2\n"]
    right += [raises(StepsError, Steps, {"a": [1]}, [door] * 9, 3), raises(OverflowError, Steps, {}, [], -1), raises(StepsError, Steps, {"a": []}, [door] * 70000, 80000)]
    right += [Steps({}, []).run().text == "ended 0\n", Steps({"a": [5]}, [(swap, 0)], limit=0).run().text == "array a 5\nlimit 0\n"]
    return not all(right) and print("used wrongly:", right)


def main():
    if misused():
        return 1
    report = Steps({"shop": [0, 0, 0]}, [(door, 1)], most=1000, limit=10000).run()
    came, went, time = report.arrays["shop"]
    print(report.text if "report" in sys.argv else f"shop: {report.steps} supersteps, {came} came, {went} went, {time} in all", end="" if "report" in sys.argv else "\n")
    return report.status != "ended"


sys.exit(main())
