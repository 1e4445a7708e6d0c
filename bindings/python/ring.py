"""Four tasks in a ring: in each of three supersteps, each takes its neighbour's cell."""
from bsp_steps import Steps


def takes(task, own):
    for step in range(3):
        task.put("ring", own, task["ring"][(own + 1) % 4])
        if step < 2:
            yield


report = Steps({"ring": [1, 2, 3, 4]}, [(takes, own) for own in range(4)]).run()
print(*report.arrays["ring"], "")
