"""Runs tasks on dask.distributed: on workers of this machine, each a process of its own, or on those of a cluster."""
import contextlib
import os
import shutil
import tempfile
from typing import Any, Iterator

from distributed import Client, KilledWorker, LocalCluster, as_completed

from ..command import PROGRAM, Fault
from .sweeping import Outcome, Task, sweep

RESOURCE = "MB"    # what workers of a cluster say how much memory they have by: dask worker .. --resources MB=4000
LEAST_FREE = 512   # MB that stay free for all else


def available_megabytes() -> int:
    """How much memory this machine can give."""
    with open("/proc/meminfo", encoding="ascii") as file:
        return next(int(line.split()[1]) // 1024 for line in file if line.startswith("MemAvailable:"))


def workers_that_fit(need: int, wanted: int | None) -> int:
    """How many workers this machine has memory and processors for, where each needs so much memory."""
    fit = max(1, (available_megabytes() - LEAST_FREE) // need)
    return min(wanted or len(os.sched_getaffinity(0)), fit)


@contextlib.contextmanager
def local_client(need: int, wanted: int | None, tasks: int) -> Iterator[Client]:
    """Workers that are processes of one thread. Their extensions, for tables that are shuffled, are left out: some versions close them twice."""
    count = min(workers_that_fit(need, wanted), tasks)
    with tempfile.TemporaryDirectory() as spare:
        with LocalCluster(n_workers=count, threads_per_worker=1, processes=True, host="127.0.0.1", dashboard_address=None, memory_limit=0,
                          resources={RESOURCE: need}, local_directory=spare, silence_logs=50, extensions={}) as cluster, Client(cluster) as client:
            yield client


@contextlib.contextmanager
def cluster_client(address: str) -> Iterator[Client]:
    """A client of a scheduler that runs already; its workers get these tools."""
    try:
        client = Client(address, timeout=30)
        client.wait_for_workers(1, timeout=60)
    except (OSError, ValueError, TimeoutError) as error:
        raise Fault(f"there is no scheduler with workers at {address}: {error}", PROGRAM) from error
    with client, tempfile.TemporaryDirectory() as spare:
        top = os.path.dirname(os.path.dirname(os.path.dirname(os.path.abspath(__file__))))
        client.upload_file(shutil.make_archive(os.path.join(spare, "distfuture_tools"), "zip", top, "distfuture_tools"))
        yield client


def memories(client: Client) -> list[int]:
    """The memory that each worker says it has; those that say nothing take every task."""
    return [int(worker["resources"].get(RESOURCE, 0)) for worker in client.scheduler_info()["workers"].values()]


def outcomes(client: Client, tasks: list[Task]) -> Iterator[Outcome]:
    """What comes of each task, in the order in which they end. Those that need most memory are begun first."""
    its = memories(client)
    is_said = bool(its) and all(its)
    futures: dict[Any, Task] = {}
    for task in sorted(tasks, key=lambda task: -task.memory):
        if is_said and task.memory > max(its):
            yield Outcome(task, PROGRAM, f"no worker has {task.memory} MB")
            continue
        resources = {RESOURCE: task.memory} if is_said else None
        futures[client.submit(sweep, task, key=f"{task.title} {task.hash}", pure=False, resources=resources)] = task
    for future in as_completed(futures, raise_errors=False):
        yield outcome_of(future, futures[future])


def outcome_of(future: Any, task: Task) -> Outcome:
    """A task that raises, or whose worker dies again and again, has failed; the others go on."""
    if future.status == "finished":
        return future.result()
    error = future.exception() if future.status == "error" else None
    if isinstance(error, KilledWorker):
        return Outcome(task, PROGRAM, "its worker was killed again and again")
    return Outcome(task, PROGRAM, f"{type(error).__name__}: {error}" if error else f"the task is {future.status}")
