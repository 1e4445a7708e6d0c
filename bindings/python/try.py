#!/usr/bin/env python3
"""try.py EXAMPLES: tries bsp.py on the stored jobs and rows of this folder, and processes that meet at a word. BSP_LIBRARY names
the library."""
import glob, multiprocessing, os, pickle, re, signal, sys, threading
from multiprocessing import shared_memory

HERE = os.path.dirname(os.path.realpath(__file__))
sys.path[:0] = [HERE, os.path.join(HERE, "..", "c")]
import bsp
from rows import whole

PHASES, PARTIES = 2000, 4
tried = wrong = 0


def want(holds, what):
    global tried, wrong
    tried += 1
    if not holds:
        wrong += 1
        print(f"WRONG: {what}", flush=True)


def raised(kind, call, *words):
    try:
        call(*words)
    except kind as error:
        return error
    return None


def text_of(report):
    """The text of a report, from its values alone."""
    lines, path = [], lambda it: "-" if it is None else ".".join(map(str, it))
    for step in report.supersteps:
        lines += [f"print {it.step} {path(it.path)} {it.value}" for it in report.prints if it.step == step.phase]
        lines.append(f"phase {step.phase} parties {step.parties} left {step.left} spawned {step.spawned}")
    lines += [" ".join(map(str, ["array", name, *cells])) for name, cells in report.arrays.items()]
    fault = report.fault
    lines.append(f"fault {fault.code} step {fault.step} path {path(fault.path)}" if fault else f"{report.status} {report.steps}")
    return "\n".join(lines) + "\n"


def try_jobs(examples):
    for name in sorted(glob.glob(f"{examples}/*.job") + glob.glob(f"{examples}/gallery/*.job")):
        text, report = open(name).read(), bsp.run(open(name).read())
        want(report.text == text_of(report) == open(name[:-3] + "out").read(), name)
        want(bsp.check(bsp.check(text)) == bsp.check(text) and bsp.upgrade(text).startswith("bsp 2\n"), name)


def try_rows(examples):
    for line in open(f"{examples}/rows.txt", encoding="utf-8", newline="\n"):
        row = line.rstrip("\n").split(" | ", 3)
        asked = re.fullmatch(r"(run|check|upgrade)(?: --limit (\d+))?", row[0])
        if not asked or line.startswith("--"):
            continue
        text, output = whole(row[1]), whole(row[3]).decode()
        limit = [int(asked[2])] if asked[2] else []
        call = getattr(bsp, asked[1])
        if row[2] in "4":
            error = raised(bsp.Refused, call, text, *limit)
            want(error and f"refused line {error.line} code {error.code}\n" == output and error.name in str(error), row[:2])
        elif row[2] in "023":
            got = call(text, *limit)
            want((got if isinstance(got, str) else got.text) == output, row[:2])
            want(isinstance(got, str) or text_of(got) == output and "023".index(row[2]) == ["ended", "fault", "limit"].index(got.status), row[:2])


def meets(phaser, cells, indices):
    me = multiprocessing.current_process().name
    for phase in range(PHASES):
        cells[int(me)] = phase
        indices[PARTIES * phase + phaser.arrive_and_wait()] += 1
        if any(it not in (phase, phase + 1) for it in cells):
            os._exit(3)


def comes_and_goes(phaser):
    for _ in range(PHASES):
        phaser.register()
        phaser.wait(phaser.arrive())
        phaser.leave()


def waits_for_the_end(phaser):
    sys.exit(0 if phaser.wait(phaser.arrive()) < 0 and raised(bsp.Ended, phaser.arrive_and_wait) else 3)


def all_of(context, body, *words):
    processes = [context.Process(target=body, args=words, name=str(n)) for n in range(PARTIES)]
    for it in processes:
        it.start()
    return processes


def ended_well(processes):
    for it in processes:
        it.join(120)
    return all(it.exitcode == 0 for it in processes)


def try_processes(method):
    context = multiprocessing.get_context(method)
    phaser, cells, indices = bsp.Phaser(PARTIES), context.RawArray("i", PARTIES), context.RawArray("i", PARTIES * PHASES)
    want(ended_well(all_of(context, meets, phaser, cells, indices)) and set(indices) == {1}, f"{method}: processes meet")
    want(phaser.word == PHASES << 32 | PARTIES * 65537 and (phaser.phase, phaser.arrived) == (PHASES, 0), f"{method}: the word")
    come = bsp.Phaser(0, least=0)
    want(ended_well(all_of(context, comes_and_goes, come)) and come.parties == 0 and come.phase >= 0, f"{method}: processes that come and go")
    late = bsp.Phaser(PARTIES + 1)
    processes = all_of(context, waits_for_the_end, late)
    while late.arrived < PARTIES:
        pass
    late.force()
    want(ended_well(processes) and late.phase < 0, f"{method}: an end wakes who waits")


def try_calls():
    phaser = bsp.Phaser(2)
    want((phaser.arrive(), phaser.unarrived, phaser.arrive_and_wait(), phaser.phase) == (0, 1, 0, 1), "a phase")
    want((phaser.register(3), phaser.parties, phaser.leave(), phaser.parties) == (1, 5, 1, 4), "register and leave")
    for status, call, *words in [(3, bsp.Phaser, 65536), (3, bsp.Phaser, -1), (4, phaser.register, 65535), (6, phaser.register, -1), (5, bsp.Phaser(0).arrive)]:
        error = raised(bsp.PhaserError, call, *words)
        want(error and error.status == status and pickle.loads(pickle.dumps(error)).name == error.name, f"status {status}")
    refused = raised(bsp.Refused, bsp.check, "bsp 1\nbody b\n  let x = y z\nend\n")
    want((refused.line, refused.code, refused.name) == (3, 7, "BadLine") and pickle.loads(pickle.dumps(refused)).line == 3, "a refusal")
    want(raised(bsp.Refused, bsp.run, "bsp 1\n# \u00e9\n").code == 2 and raised(ValueError, bsp.run, "bsp 1", 0) and raised(ValueError, bsp.run, "bsp 1", 1 << 32), "texts and limits")
    block = shared_memory.SharedMemory(create=True, size=64)
    bsp.Phaser.place(block.buf, 1, 8)
    want(raised(bsp.PhaserError, bsp.Phaser.on, bytearray(b"\1" + bytes(7))).status == 1, "no word")
    placed = bsp.Phaser.on(block.buf, 8)
    want((placed.arrive_and_wait(), placed.phase, int.from_bytes(block.buf[8:16], "little")) == (0, 1, 0x100010001), "a word in shared memory")
    del placed
    block.close()
    block.unlink()

    def interrupts(*_):
        raise InterruptedError
    signal.signal(signal.SIGALRM, interrupts)
    signal.setitimer(signal.ITIMER_REAL, 0.2)
    want(raised(InterruptedError, bsp.Phaser(2).arrive_and_wait), "a signal interrupts who waits")
    late = bsp.Phaser(2)
    phase = late.arrive()
    want(raised(TimeoutError, late.wait, phase, 0) and raised(TimeoutError, late.wait, phase, 0.01) and late.unarrived == 1, "waits with a limit")
    want((late.arrive_and_wait(5), late.wait(phase, 0)) == (0, 1) and raised(TimeoutError, late.arrive_and_wait, 0.01), "a meeting with a limit")
    both = bsp.Phaser(2)
    threads = [threading.Thread(target=lambda: [both.arrive_and_wait() for _ in range(PHASES)]) for _ in range(2)]
    for it in threads:
        it.start()
    for it in threads:
        it.join()
    want(both.phase == PHASES, "threads meet")


if __name__ == "__main__":
    try_calls()
    for method in multiprocessing.get_all_start_methods():
        try_processes(method)
    if len(sys.argv) > 1:
        try_jobs(sys.argv[1])
        try_rows(sys.argv[1])
    print(f"{tried} tried, {wrong} wrong")
    sys.exit(bool(wrong))
