#!/usr/bin/env python3
"""Counts what a hit costs: calls of the system, instructions, calls of the allocator, and where they go. See README.md."""

import argparse
import collections
import os
import re
import shutil
import signal
import subprocess
import sys
import tempfile
import time

sys.dont_write_bytecode = True

import run

# Octets, ways and octets a line of the cache behind the first whose misses are counted: a second cache of one processor.
SECOND_CACHE = "1048576,16,64"
MISSES = {
    "D1mr": "reads that miss the first cache",
    "DLmr": "reads that miss the second as well",
    "D1mw": "writes that miss the first cache",
    "DLmw": "writes that miss the second as well",
}


def fill_and_ask(data, passes):
    for times, wanted in ((1, "NOERROR"), (passes, "NOERROR")):
        seen = run.dnsperf("dnsfleet", data, ["-n", str(times), "-q", "20"], None, 600)
        if seen["lost"] or seen["good"] != seen["completed"]:
            sys.exit(f"not all were answered:\n{seen['text']}")
    return seen["completed"]


def site(servers, folder, options, before):
    """Starts a site behind other words, as those of valgrind."""
    words = run.site_words(os.path.abspath(options.program), folder)
    servers.start("dnsfleet", before + words + (["--report", "86400"] if options.report else []))
    time.sleep(3)
    servers.check("dnsfleet")
    return servers.running["dnsfleet"]


def end(process, number):
    process.send_signal(number)
    process.wait(30)


def system_calls(servers, folder, options, data):
    process = site(servers, folder, options, [])
    fill_and_ask(data, 1)
    path = os.path.join(folder, "strace")
    tracer = subprocess.Popen(["strace", "-c", "-o", path, "-p", str(process.pid)], stderr=subprocess.DEVNULL)
    time.sleep(1)
    asked = run.dnsperf("dnsfleet", data, ["-n", str(options.passes), "-q", "20"], None, 600)["completed"]
    end(tracer, signal.SIGINT)
    end(process, signal.SIGTERM)
    print(f"Calls of the system over {asked:.0f} hits:")
    with open(path) as file:
        for line in file:
            found = re.match(r"\s*[\d.]+\s+[\d.]+\s+\d+\s+(\d+)\s+(?:\d+\s+)?(\w+)$", line)
            if found and found[2] != "total":
                print(f"  {int(found[1]) / asked:6.3f} {found[2]}")


class Profile:
    """Instructions, calls and, where they were counted, misses of a callgrind file."""

    def __init__(self, path):
        self.names = {}
        self.own = collections.Counter()
        self.calls = collections.Counter()
        self.events = collections.Counter()
        here, called, events = None, False, []
        with open(path) as file:
            for line in file:
                if line.startswith("events:"):
                    events = line.split()[1:]
                elif line.startswith("fn="):
                    here = self.name(line[3:])
                elif line.startswith("cfn="):
                    there = self.name(line[4:])
                elif line.startswith("calls="):
                    self.calls[there] += int(line[6:].split()[0])
                    called = True
                elif re.match(r"[-+*\d]", line):
                    if not called:
                        counts = [int(it) for it in line.split()[1:]]
                        self.own[here] += counts[0]
                        self.events.update(dict(zip(events, counts)))
                    called = False

    def name(self, text):
        found = re.match(r"\((\d+)\)(?: (.*))?", text.strip())
        if found[2]:
            self.names[found[1]] = re.sub(r"::<#[0-9a-f]+>|'\d+$", "", found[2])
        return self.names[found[1]]


def profile(servers, folder, options, data, passes):
    path = os.path.join(folder, f"callgrind-{passes}")
    words = ["valgrind", "--quiet", "--tool=callgrind", f"--callgrind-out-file={path}"]
    if options.misses:
        words += ["--cache-sim=yes", f"--LL={SECOND_CACHE}"]
    process = site(servers, folder, options, words)
    asked = fill_and_ask(data, passes)
    end(process, signal.SIGTERM)
    return Profile(path), asked


def instructions(servers, folder, options, data):
    few, asked = profile(servers, folder, options, data, options.passes)
    many, asked_more = profile(servers, folder, options, data, 2 * options.passes)
    hits = asked_more - asked
    total = (sum(many.own.values()) - sum(few.own.values())) / hits
    print(f"\nInstructions a hit, without the system's: {total:.0f}")
    for name, count in (many.own - few.own).most_common(options.lines):
        print(f"  {count / hits:8.1f} {100 * count / hits / total:5.1f}% {name[:100]}")
    print("Calls of the allocator a hit:")
    for name in ("malloc", "calloc", "realloc", "free"):
        print(f"  {(many.calls[name] - few.calls[name]) / hits:6.2f} {name}")
    if options.misses:
        print("Misses a hit, in callgrind's model of two caches:")
        for event, text in MISSES.items():
            print(f"  {(many.events[event] - few.events[event]) / hits:6.2f} {text}")


def options_of():
    words = argparse.ArgumentParser(description=__doc__)
    words.add_argument("--program", required=True, help="the built dnsfleet")
    words.add_argument("--names", type=int, default=1000, help="how many names (1000)")
    words.add_argument("--mixed-case", action="store_true", help="ask in mixed case")
    words.add_argument("--passes", type=int, default=10, help="how often each name is asked for, and twice that (10)")
    words.add_argument("--lines", type=int, default=30, help="how many functions are shown (30)")
    words.add_argument("--report", action="store_true", help="the site counts what goes through its port (serve --report)")
    words.add_argument("--misses", action="store_true", help="count misses of the processor's caches as well")
    return words.parse_args()


def main():
    run.end_servers_when_ended()
    options = options_of()
    folder = tempfile.mkdtemp(prefix="dnsfleet-bench-")
    servers = run.Servers(folder, None)
    try:
        run.write_zone(folder, options.names)
        data = run.write_names(folder, options.names, options.mixed_case)
        servers.start("nsd", run.nsd_words(folder))
        time.sleep(2)
        system_calls(servers, folder, options, data)
        instructions(servers, folder, options, data)
    finally:
        servers.stop_all()
        shutil.rmtree(folder, ignore_errors=True)


if __name__ == "__main__":
    main()
