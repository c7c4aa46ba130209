#!/usr/bin/env python3
"""What a cache costs beside a std::map, at 10^3 to 10^6 items: see README.md."""

import argparse
import os
import pathlib
import resource
import shutil
import subprocess
import sys
import tempfile

HERE = pathlib.Path(__file__).resolve().parent
TOP = HERE.parent.parent
BELOW = ["fleet_name", "fleet_wire", "fleet_observe", "fleet_front", "fleet_cache"]

# Beside what a cache is filled with when its longest purge and its longest take are looked for: one name with so many records,
# of which one ends each second; so many names of a hundred labels that have ended, where a flush is noted; nothing. Before
# these, the longest of the takes of the last such records.
BESIDE = (
    ("forged-purges", 40_000),
    ("deep-purges", 20_000),
    ("into", 40_000),
    ("forged", 0),
    ("forged", 40_000),
    ("deep", 20_000),
)


def build(folder):
    """Builds both programs in the folder."""
    lines = (TOP / "crates.txt").read_text().splitlines()
    kept = [line for line in lines if line.split(":")[0] in BELOW]
    kept.append("cache_bench: fleet_name fleet_wire fleet_observe fleet_cache anyhow")
    (folder / "crates.txt").write_text("\n".join(kept) + "\n")
    for name in BELOW:
        shutil.copytree(TOP / "crates" / name, folder / "crates" / name)
    program = folder / "crates" / "cache_bench"
    (program / "src").mkdir(parents=True)
    shutil.copy(HERE / "cache.rattle", program / "src" / "main.rt")
    done = subprocess.run(
        ["rt", "run", "--", "make", "1", "1"], cwd=program, capture_output=True, text=True
    )
    built = program / "out" / "cache_bench"
    if done.returncode != 0 or not built.exists():
        sys.exit(f"{done.stdout}{done.stderr}the program was not built")
    compiler = os.environ.get("CXX", "g++")
    subprocess.run([compiler, "-O2", "-o", folder / "map", HERE / "map.cpp"], check=True)
    return built, folder / "map"


def run(program, mode, items, rounds):
    """Processor seconds, and the greatest memory in octets, of one run."""
    child = os.fork()
    if child == 0:
        os.dup2(os.open(os.devnull, os.O_WRONLY), 1)
        os.execv(program, [str(program), mode, str(items), str(rounds)])
    _, status, used = os.wait4(child, 0)
    if status != 0:
        sys.exit(f"{program} {mode} {items}: status {status}")
    return used.ru_utime + used.ru_stime, used.ru_maxrss * 1024


def least(program, mode, items, rounds, times):
    results = [run(program, mode, items, rounds) for _ in range(times)]
    return min(seconds for seconds, _ in results), min(memory for _, memory in results)


def pause(program, mode, items, times, rounds=1):
    """Milliseconds: the greatest of the numbers that the program prints, each the least of several runs."""
    words = [str(program), mode, str(items), str(rounds)]
    said = [subprocess.run(words, capture_output=True, text=True, check=True).stdout.split() for _ in range(times)]
    return f"{max(min(int(text) for text in same) for same in zip(*said)) / 1000:.2f}"


def figures(program, items, times, is_cache):
    """Microseconds a take and an answer, octets an item, milliseconds of the two purges, a flush, a purge behind it, and the
    longest purges and takes."""
    rounds = max(1, 1_000_000 // items)
    made, _ = least(program, "make", items, 1, times)
    taken, memory = least(program, "take", items, 1, times)
    half = items // 2
    _, base = least(program, "take", half, 1, times)
    asked, _ = least(program, "ask", items, rounds, times)
    answered, _ = least(program, "answer", items, rounds, times)
    row = [
        f"{(taken - made) / items * 1e6:.2f}",
        f"{(answered - asked) / (items * rounds) * 1e6:.2f}",
    ]
    if items < 100_000:
        return row + ["-"] * (5 + len(BESIDE))
    row.append(f"{(memory - base) / (items - half):.0f}")
    row += [pause(program, mode, items, times) for mode in ("purge", "all")]
    if not is_cache:
        return row + ["-"] * (2 + len(BESIDE))
    row += [pause(program, mode, items, times) for mode in ("flush", "behind")]
    return row + [pause(program, mode, items, times, rounds) for mode, rounds in BESIDE]


def main():
    words = argparse.ArgumentParser(description=__doc__)
    words.add_argument("--items", default="1000,10000,100000,1000000")
    words.add_argument("--times", type=int, default=3, help="runs of each, of which the least counts, purge by purge")
    words = words.parse_args()
    resource.setrlimit(resource.RLIMIT_CORE, (0, 0))
    with tempfile.TemporaryDirectory() as name:
        ours, theirs = build(pathlib.Path(name))
        print(
            "| items | | us a take | us an answer | octets an item | ms a purge, few | ms a purge, all | ms a flush "
            "| ms a purge behind it | ms a purge, forged | ms a purge, deep | ms a take into forged | ms a take "
            "| ms a take, forged | ms a take, deep |"
        )
        print("|---" * 15 + "|")
        for items in (int(word) for word in words.items.split(",")):
            for title, program in (("cache", ours), ("std::map", theirs)):
                row = figures(program, items, words.times, program == ours)
                print(" | ".join([f"| {items}", title] + row) + " |", flush=True)


if __name__ == "__main__":
    main()
