#!/usr/bin/env python3
"""Proves crates over what earlier checks kept, several at a time, the longest chain of crates first.

    tools/prove.py [--lanes N] [CRATE..]      from the top of the repository

CRATE is proved with all crates below it; without one all libraries and the program are. A crate of tests is proved with its tests, and none is
run. A library whose text and whose libraries are as they were when it was last proved here is passed over, so it may be called again after
each change, and no text is changed while it runs. It gives no verdict: that is `rt ci`, which proves everything from nothing. It is for an older `rt`, which keeps nothing of
`rt ci` and sums up a library by each way down to each crate. What is kept stands in crates/NAME/out, what a check said in out/prove.log.
"""
import copy
import os
import subprocess
import sys
import time
from concurrent.futures import FIRST_COMPLETED, ThreadPoolExecutor, wait

from ahead import crates_of, toolchain

KEPT = ["--incremental", "out/incremental"]
MEMORY = 3500  # megabytes that have to be free before another crate begins


def free():
    """The free memory in megabytes."""
    with open("/proc/meminfo", encoding="ascii") as file:
        return next(int(it.split()[1]) // 1024 for it in file if it.startswith("MemAvailable:"))


class Proofs:
    """The crates that are wanted, and what became of them."""

    def __init__(self, rt, crates, lanes):
        self.rt, self.lanes = rt, lanes
        self.wanted = crates
        names = {it.name for it in crates}
        self.below = {it.name: [low.name for low in it.below() if low.name in names] for it in crates}
        self.behind = {it.name: 0 for it in crates}
        for it in reversed(crates):
            self.behind[it.name] += it.count(rb"\n") + 200
            for low in self.below[it.name]:
                self.behind[low] = max(self.behind[low], self.behind[it.name])

    def is_proved(self, crate):
        try:
            with open(f"{crate.folder}/out/rlib/proved", encoding="ascii") as file:
                return file.read() == crate.stamp()
        except OSError:
            return False

    def prove(self, crate, jobs):
        """Proves a crate, and answers whether that went well."""
        if self.is_proved(crate):
            return True
        os.makedirs(f"{crate.folder}/out/rlib", exist_ok=True)
        stamp, begin, crate = crate.stamp(), time.monotonic(), copy.copy(crate)
        is_test = crate.name.startswith("test_")
        words = crate.words(["--jobs", str(jobs), *(["--test"] if is_test else [])])
        call = ["check", *words, *KEPT] if is_test or crate.is_program else ["build", *words, *KEPT, "-o", crate.rlib]
        with open(f"{crate.folder}/out/prove.log", "w", encoding="utf-8") as file:
            made = subprocess.Popen([*self.rt.rtlib.guarded(), self.rt.rtlib.RATTLE, *call], cwd=crate.folder, stdin=subprocess.DEVNULL, stdout=file, stderr=subprocess.STDOUT)
            _, status, used = os.wait4(made.pid, 0)
            made.returncode = status
        if status == 0:
            with open(f"{crate.folder}/out/rlib/proved", "w", encoding="ascii") as file:
                file.write(stamp)
        took = f"{time.monotonic() - begin:.0f} s by the clock, {used.ru_utime + used.ru_stime:.0f} of a processor, {used.ru_maxrss // 1024} MB"
        print(f"{crate.name}: {'proved' if status == 0 else 'NOT PROVED'}, {took}", flush=True)
        return status == 0

    def run(self):
        """Proves all, and answers how many were not."""
        left, running, done = sorted(self.wanted, key=lambda it: -self.behind[it.name]), {}, {}
        with ThreadPoolExecutor(self.lanes) as pool:
            while left or running:
                ready = [it for it in left if all(low in done for low in self.below[it.name])]
                for at, it in enumerate(ready):
                    if not all(done[low] for low in self.below[it.name]):
                        left.remove(it)
                        done[it.name] = False
                        continue
                    idle = self.lanes - sum(jobs for _, jobs in running.values())
                    if idle > 0 and (not running or free() > MEMORY):
                        left.remove(it)
                        jobs = max(1, min(4, idle // (len(ready) - at)))
                        running[pool.submit(self.prove, it, jobs)] = it.name, jobs
                for it in wait(running, timeout=2, return_when=FIRST_COMPLETED).done:
                    done[running.pop(it)[0]] = it.result()
        return sum(not well for well in done.values())


def main(words):
    lanes = os.cpu_count() or 1
    if words[:1] == ["--lanes"]:
        lanes, words = int(words[1]), words[2:]
    rt, _ = toolchain()
    rt.rtlib.guarded()
    crates = sorted(crates_of(rt, os.getcwd()), key=lambda it: len(it.below()))
    named = {it.name: it for it in crates}
    if unknown := [it for it in words if it not in named]:
        sys.exit(f"crates.txt lists no crate {unknown[0]}")
    wanted = {low.name for it in words for low in [*named[it].below(), named[it]]}
    wanted = wanted or {it.name for it in crates if not it.name.startswith("test_")}
    return 1 if Proofs(rt, [it for it in crates if it.name in wanted], lanes).run() else 0


if __name__ == "__main__":
    sys.exit(main(sys.argv[1:]))
