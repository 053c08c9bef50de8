#!/usr/bin/env python3
"""Runs the gate (`rt ci`) where it is called, in the order that ends first where one chain of libraries decides.

usage: chain_first.py [--anew]     prove all, and take nothing of what an earlier run kept

The gate's own order fits many proofs, tests and edits: a proof gets one process while others wait, and keeps it. Where only
libraries are proved, the last ones of the longest chain would run alone. So the crate for which the longest chain waits, by
tools/seconds.txt, begins first. If no crate that runs has a longer one, the processors that nothing else waits for share its
proof: two processes take about two thirds of the time of one, four about half. No more processes than processors run at a
time, because then each takes more processor time for the same work.

The gate also searches each proved library for contracts that no call can meet. `make test` does so, and a build needn't.
"""
import hashlib
import os
import sys
from concurrent.futures import FIRST_COMPLETED, ThreadPoolExecutor, wait

import rt_module
from prove import SHARERS, processors, seconds_of_crates


def chains_of(tasks):
    """Returns for each task the seconds of the longest chain of tasks that waits for it, its own included."""
    known = seconds_of_crates()
    seconds = {it: known.get(it[0], 30) if it[1] == "proof" else 0 for it in tasks}
    chains = dict(seconds)
    # (a task comes after those that it waits for)
    for it in reversed([*tasks]):
        for below in tasks[it][0]:
            chains[below] = max(chains[below], seconds[below] + chains[it])
    return chains


def next_one(tasks, chains, begun, running, memory):
    """Returns the task that begins now and how many processes share it, or None."""
    ready = [it for it in tasks if it not in begun and all(below in begun and below not in running for below in tasks[it][0])]
    idle = processors() - sum(running.values())
    if not ready or idle < 1:
        return None
    first = max(ready, key=chains.get)
    # (processes that share a proof share most of its memory, and take less than the gate plans for one)
    if running and tasks[first][2] > memory - sum(tasks[it][2] for it in running):
        return None
    is_urgent = chains[first] == max(chains[it] for it in [*ready, *running])
    # (the other tasks are tests and edits; a copy for a build has none, so they end at once)
    others = [it for it in ready if it != first and it[1] == "proof"]
    return first, max(1, min(SHARERS, idle - len(others))) if is_urgent else 1


def in_lanes(memory):
    """Returns what takes the place of the gate's function of this name, which runs tasks side by side and returns what each
    gave. A task is what it waits for, its work in lines, its memory, and a call that gets what was given and how many
    processes share it."""

    def lanes(tasks):
        chains, begun, running, given, futures = chains_of(tasks), set(), {}, {}, {}
        with ThreadPoolExecutor(len(tasks)) as pool:
            while len(given) < len(tasks):
                while begins := next_one(tasks, chains, begun, running, memory):
                    it, shared = begins
                    begun.add(it)
                    running[it] = shared
                    futures[pool.submit(tasks[it][3], dict(given), shared)] = it
                for ended in wait(futures, return_when=FIRST_COMPLETED).done:
                    it = futures.pop(ended)
                    del running[it]
                    given[it] = ended.result()
        return given

    return lanes


def leave_out_empty_contracts(rt):
    """Leaves out the search for contracts that no call can meet. What was proved without it is kept under a key of its own,
    so that the gate doesn't take it."""
    help_of, key = rt.rtlib.help_of, rt.Kept.key

    def own_key(kept, crate):
        gates = key(kept, crate)
        is_kept = os.path.isdir(kept.place(crate, False, gates))
        return gates if is_kept else hashlib.sha256(f"built {gates}".encode()).hexdigest()

    rt.rtlib.help_of = lambda command: help_of(command).replace("--empty-contracts", "")
    rt.Kept.key = own_key


if __name__ == "__main__":
    rt = rt_module.loaded()
    if hasattr(rt, "in_lanes"):
        rt.in_lanes = in_lanes(0.85 * rt.free())
    if hasattr(rt, "Kept") and hasattr(rt.rtlib, "help_of"):
        leave_out_empty_contracts(rt)
    sys.exit(rt.main(["ci", *sys.argv[1:]]))
