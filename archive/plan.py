"""Says which files go together to one worker, and which are so great that each has a machine to itself."""

from __future__ import annotations

import os
from typing import Iterator, List, Tuple

from .model import Batch, Bounds, File

MEGABYTE = 1 << 20
# In how many bytes read a worker opens a file; and how much memory p21check takes by its file.
OPEN, MEMORY = MEGABYTE // 16, 3
LEAST_GREAT = 16 * MEGABYTE
# A file that is no longer is held whole by a worker.
WHOLE = LEAST_GREAT
# A batch is this part of what each processor is left with, so that all end together; and the least and the most that there is to read in one.
PART, LEAST, MOST = 2, 4 * MEGABYTE, 128 * MEGABYTE


def processors() -> int:
    """How many processors this process may use."""
    return len(os.sched_getaffinity(0))


def cost(file: File) -> int:
    """What a file costs, as bytes that are read, about."""
    return OPEN + file.unpacked


def split(files: List[File], jobs: int) -> Tuple[List[File], List[File]]:
    """The great files, and the others, the largest first. A great one would take a processor longer than all the others take the rest, or
    so much memory that not so many of its size could be read side by side."""
    files = sorted(files, key=lambda it: (-cost(it), it.name))
    memory = os.sysconf('SC_PHYS_PAGES') * os.sysconf('SC_PAGE_SIZE')
    left = sum(map(cost, files))
    for count, file in enumerate(files):
        if cost(file) < LEAST_GREAT or cost(file) * jobs <= left and cost(file) * MEMORY * jobs <= memory:
            return files[:count], files[count:]
        left -= cost(file)
    return files, []


def batches(files: List[File], jobs: int, bounds: Bounds) -> Iterator[Batch]:
    """Batches of files that are read by one lane each, ever smaller ones."""
    left = sum(map(cost, files))
    taken: List[File] = []
    room = 0
    for file in files:
        if taken and cost(file) > room:
            yield Batch(1, taken, bounds)
            taken = []
        if not taken:
            room = min(MOST, max(LEAST, left // (jobs * PART)))
        taken.append(file)
        room -= cost(file)
        left -= cost(file)
    if taken:
        yield Batch(1, taken, bounds)


def plan(files: List[File], jobs: int, bounds: Bounds) -> Tuple[List[Batch], List[Batch]]:
    """The batches of the great files, one each for all lanes, and those of the others."""
    great, others = split(files, jobs)
    return [Batch(0, [it], bounds) for it in great], list(batches(others, jobs, bounds))
