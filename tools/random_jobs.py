"""Random jobs of both formats, for tools/soak and tools/json: `job`, and `wave`, whose live tasks grow to thousands and leave."""


def value(r, cells):
    return r.choice(["arg", "step", "x", "y", str(r.randint(-3, 99)), "a[x]" if cells else "x", "b[y]" if cells else "y"])


def expression(r, cells=True):
    if r.random() < 0.4:
        return value(r, cells)
    return "%s %s %s" % (value(r, cells), r.choice(["+", "-", "*", "<", "<=", "==", "!="]), value(r, cells))


def statements(r, form, deep, bodies):
    lines = []
    for _ in range(r.randint(1, 5)):
        kind = r.random()
        if kind < 0.25:
            lines.append("let %s = %s" % (r.choice("xy"), expression(r)))
        elif kind < 0.3:
            lines += ["let x = x % 8", "if x < 0", "let x = 0", "end"]
        elif kind < 0.5:
            lines.append("%s a[arg] = %s" % ("add" if form == 2 and r.random() < 0.5 else "put", expression(r)))
        elif kind < 0.6:
            lines.append("put b[step] = %s" % expression(r))
        elif kind < 0.7:
            lines.append("print %s" % expression(r))
        elif kind < 0.8:
            lines.append("sync")
        elif kind < 0.88 and bodies:
            lines.append("spawn %s %s" % (r.choice(bodies), r.choice(["arg", "0", "1", "2"])))
        elif kind < 0.9:
            lines.append("stop")
        elif deep:
            lines += ["if %s" % expression(r, False)] + statements(r, form, deep - 1, bodies) + ["end"]
    return lines


def body(r, form, name, bodies):
    times = r.randint(1, 6)
    head = ["body %s%s" % (name, " t x y" if form == 2 else ""), "let t = 0", "let x = 0", "let y = arg"]
    if form == 1:
        head = ["body " + name, "let t = 0", "let x = 0", "let y = arg"]
    return head + ["while t < %d" % times] + statements(r, form, 2, bodies) + ["let t = t + 1", "sync", "end", "end"]


def job(r):
    form = r.choice([1, 2])
    lines = ["bsp %d" % form, "array a 64 " + " ".join(str(r.randint(-9, 9)) for _ in range(64)), "array b 16"]
    names = ["leaf", "mid", "top"]
    for i, name in enumerate(names):
        lines += body(r, form, name, names[:i])
    for _ in range(r.choice([0, 1, 2, 7, 40, 300])):
        lines.append("start %s %d" % (r.choice(names), r.randint(0, 63)))
    return "\n".join(lines) + "\n"


def wave(r):
    """a job whose one task becomes up to 4096, which leave in one of three ways"""
    last = r.randint(1, 7)
    low = 4608 + r.randint(0, 512 * last - 1)
    ways = {
        # all at once
        "all": ["let left = %d" % r.randint(0, 3)],
        # one after another
        "turns": ["let left = arg %% %d" % r.randint(2, 40)],
        # those of one stretch, and the rest later
        "stretch": ["let left = 6", "if %d <= arg" % low, "if arg < %d" % (low + r.randint(1, 600)), "let left = 1", "end", "end"],
    }
    grow = ["if arg < 512", "let i = 0", "while i < 8", "let n = arg * 8", "let n = n + i", "spawn b n", "let i = i + 1", "end", "stop", "end",
            "if arg < 4096", "let i = 0", "while i < %d" % last, "let n = arg + %d" % 4096, "let k = i * 512", "let n = n + k", "spawn b n", "let i = i + 1", "end", "stop", "end"]
    live = r.choice(sorted(ways.values())) + ["let t = 0", "let c = arg % 64", "while t < left", "put a[c] = arg + t", "let t = t + 1", "sync", "end"]
    return "\n".join(["bsp 1", "array a 64", "body b"] + grow + live + ["end", "start b 1"]) + "\n"
