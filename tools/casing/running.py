"""All runs of all cases, as many at once as there are processors."""
import multiprocessing
import traceback

from casing.pieces import cuts_of
from casing.trying import Trial

HELD = []


def trials_of(cases, programs, seconds):
    """Each run of each case over each program, in each way of cutting, for so long."""
    for runs in cases.values():
        for run in runs:
            if run.only_in_memory:
                continue
            for cut in cuts_of(run):
                for program in programs:
                    yield program, run, cut, seconds


def hold(trials):
    """Keeps the trials in a process of the pool, which are then named by their numbers."""
    HELD[:] = trials


def tried(number):
    """The report of a run that differs; empty for one that goes as written."""
    program, run, cut, _ = HELD[number]
    try:
        differences = Trial(*HELD[number]).differences()
    except Exception:
        differences = [traceback.format_exc()]
    if not differences:
        return ""
    heading = f"{run.place}, {cut.name}, {program}: {run.shows}".rstrip(": ")
    return "\n".join([f"FAILED {heading}", f"  words: {run.words}", *differences])


def failures_of(trials, jobs):
    """Tries all, and yields the report of each as it ends."""
    context = multiprocessing.get_context("fork")
    with context.Pool(jobs, initializer=hold, initargs=(trials,)) as pool:
        yield from pool.imap_unordered(tried, range(len(trials)), chunksize=4)
