#!/usr/bin/env python3
"""How long the replies to queries take within one run, without its loading.

    tools/reply_times.py BINARY SCRIPT [COUNT [WORD..]]

For each query of the script, or each whose line has one of the words, the lines before the first query are run, and then COUNT times
that query (100 unless said otherwise). A row has the least and the median of the times between one reply and the next, in milliseconds,
and the query. The times are those of the calls that write, as `perf` tells them, which has to be allowed to trace calls of the system.
"""
import json
import os
import re
import subprocess
import sys
import tempfile

COUNT = 100
QUERY = b'"do":"query"'


class Tracer:
    """Runs scripts with a program, and tells when it wrote."""

    def __init__(self, binary, folder):
        self.binary = os.path.abspath(binary)
        self.script, self.record = os.path.join(folder, "script"), os.path.join(folder, "record")

    def writes(self, lines):
        """The seconds at which the program wrote the replies to these lines."""
        with open(self.script, "wb") as script:
            script.write(b"".join(line + b"\n" for line in lines))
        words = ["perf", "record", "-q", "-m", "1024", "-e", "syscalls:sys_enter_write", "-o", self.record, self.binary, "run"]
        with open(self.script, "rb") as script:
            subprocess.run(words, stdin=script, stdout=subprocess.DEVNULL, check=True)
        words = ["perf", "script", "-i", self.record, "--ns", "-F", "trace:time,trace"]
        told = subprocess.run(words, stdout=subprocess.PIPE, text=True, check=True).stdout
        return [float(it) for it in re.findall(r"^\s*(\d+\.\d+):.*fd: 0x0*1,", told, re.M)]

    def replies(self, before, query, count):
        """The milliseconds between one reply to a query and the next, the least first."""
        first = len(self.writes(before))
        at = self.writes(before + [query] * count)[first:]
        parts, rest = divmod(len(at), count)
        if rest:
            raise ValueError(f"{len(at)} writes for {count} replies: perf lost some, so ask again")
        ends = at[parts - 1 :: parts]
        return sorted(1000 * (end - begin) for begin, end in zip(ends, ends[1:]))


def main(words):
    binary, script = words[:2]
    count = int(words[2]) if len(words) > 2 else COUNT
    with open(script, "rb") as file:
        lines = [it for it in file.read().split(b"\n") if it]
    before = [it for it in lines if QUERY not in it]
    with tempfile.TemporaryDirectory() as folder:
        tracer = Tracer(binary, folder)
        for query in (it for it in lines if QUERY in it):
            if words[3:] and not any(it.encode() in query for it in words[3:]):
                continue
            took = tracer.replies(before, query, count)
            print(f"{took[0]:8.2f} {took[len(took) // 2]:8.2f}   {json.loads(query)['eql']}", flush=True)


if __name__ == "__main__":
    main(sys.argv[1:])
