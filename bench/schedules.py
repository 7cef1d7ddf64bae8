#!/usr/bin/env python3
"""Generators of schedules, of which each makes one kind of line, or one kind of state, as often as its size says.

usage: bench/schedules.py                 lists the generators, each with its size, or with three
       bench/schedules.py NAME [SIZE]     writes the schedule, of its smallest size without the word
"""
import sys

sys.dont_write_bytecode = True
import dispute_schedules  # these three put their generators on a list
import growing_schedules
import hostile_schedules
from schedule_lines import GROWING, SCHEDULES, Schedule

# Each generator with its sizes.
ALL = {**{name: (make, [size]) for name, (make, size) in SCHEDULES.items()}, **GROWING}


def main():
    if len(sys.argv) < 2:
        for name, (_, sizes) in ALL.items():
            print(f"{name:40}" + "".join(f" {size:>8,}" for size in sizes))
        return
    if sys.argv[1] not in ALL:
        sys.exit(f"no generator has the name {sys.argv[1]!r}")
    make, sizes = ALL[sys.argv[1]]
    make(Schedule(sys.stdout), int(sys.argv[2]) if len(sys.argv) > 2 else sizes[0])


if __name__ == "__main__":
    main()
