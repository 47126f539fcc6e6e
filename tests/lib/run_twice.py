"""Joins cuts as examples/cluster/merge.py does, each task twice: SCHEDULER OUT KIND GROUP CUTS..

Two workers run each task, a third task compares what they give back, and an error ends the script where the
two differ. It needs Debian's package python3-distributed, and the folder of merge.py among those of modules,
here and at the workers. It prints how many tasks were run twice.
"""
import sys
from typing import Callable

import merge
from distributed import Client, Future

SECONDS = 300  # until a task counts as stuck, on a busy machine too


def agreed(one: merge.Part, other: merge.Part) -> merge.Part:
    """What two runs of a task gave back."""
    if one != other:
        raise ValueError("two runs of a task differ")
    return one


class Twice:
    """Hands each task to two workers, and counts the tasks."""

    def __init__(self, client: Client) -> None:
        self.client, self.count = client, 0
        client.wait_for_workers(2, timeout=SECONDS)
        self.workers = list(client.scheduler_info()["workers"])[:2]

    def submit(self, task: Callable[..., merge.Part], *given: object) -> Future:
        self.count += 1
        runs = [self.client.submit(task, *given, pure=False, workers=[worker]) for worker in self.workers]
        return self.client.submit(agreed, *runs, pure=False)


def main() -> None:
    scheduler, out, kind, group, *cuts = sys.argv[1:]
    with merge.connected(scheduler) as client:
        twice = Twice(client)
        part: merge.Part = merge.merged(twice.submit, cuts, kind, int(group)).result(timeout=SECONDS)
    if not isinstance(part, bytes):
        sys.exit(part[1])
    merge.replace(out, part)
    print(twice.count)


main()
