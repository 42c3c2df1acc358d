#!/usr/bin/env python3
"""The bench: `timing` beside a plain Rust program that does the same, out of one run.

    bench.py [--times N] [--rounds N] [--with "taskset -c 3 nice -n -20"]

Needs `crates/timing/out/timing` (made by `rt run` in crates/timing) and `rustc`. It makes the workloads in a folder of its own,
checks that all programs give the same extents and counts, and only then times them: each program in turn on each workload, in so
many rounds of N samples, a sample being eight runs. What is written, as Markdown on standard output, is the least of all samples.
"""
import argparse
import pathlib
import re
import shlex
import subprocess
import sys
import tempfile

import workloads

HERE = pathlib.Path(__file__).resolve().parent
ROOT = HERE.parent.parent
TIMING = ROOT / "crates/timing/out/timing"
SIZES = [256, 1024, workloads.ENTRIES]
INDEXES = [100_000, 1_000_000]


def say(*words):
    print(*words, file=sys.stderr, flush=True)


def run(command, path):
    with open(path, "rb") as lines:
        done = subprocess.run(command, stdin=lines, stdout=subprocess.PIPE, check=True)
    return done.stdout.decode()


def row(*cells):
    print("| " + " | ".join(str(cell) for cell in cells) + " |")


def table(*heads):
    row(*heads)
    row(*["---"] + ["---:"] * (len(heads) - 1))


class Bench:
    def __init__(self, options, folder):
        plain = folder / "plain"
        subprocess.run(["rustc", "-O", "--edition", "2024", "-o", plain, HERE / "plain.rs"], check=True)
        self.before = shlex.split(options.with_)
        self.times, self.rounds, self.folder = options.times, options.rounds, folder
        self.programs = {"timing": [TIMING], "plain": [plain], "remembered": [plain, "--remembered"]}

    def check(self, path, *args):
        """The programs say the same of these lines."""
        said = [run(program + ["--answers", *args], path) for program in self.programs.values()]
        counts = [run(program + list(args), path) for program in self.programs.values()]
        if said.count(said[0]) != len(said) or counts.count(counts[0]) != len(counts):
            sys.exit(f"the programs differ over {path.name} {args}")
        return counts[0].splitlines()

    def measure(self, path, *args, mode=()):
        """For each program and line, the least times of what it says: `search` and `answer`, or `fetch`."""
        least = {}
        for _ in range(self.rounds):
            for name, program in self.programs.items():
                command = self.before + program + ["--times", str(self.times), *mode, *args]
                for i, line in enumerate(run(command, path).splitlines()):
                    for what, nanos in re.findall(r" (search|answer|fetch) (\d+) \d+", line):
                        key = name, i, what
                        least[key] = min(least.get(key, int(nanos)), int(nanos))
        return least


def logs(bench):
    """The six questions, and the absent name; and how they grow."""
    told, grown = [], []
    for kind in ["even", "rev"]:
        for size in SIZES:
            path = bench.folder / f"{kind}-{size}.log"
            counts = bench.check(path)
            say(f"{path.name}: the same extents and counts")
            least = bench.measure(path)
            for i in range(3):
                grown.append((f"{kind} Q{i + 1}", size, counts[i], least["timing", i, "search"]))
            if size == workloads.ENTRIES:
                told.append((kind, counts, least))
    print("\n## Six questions over 4,096 entries: ns a question, least sample\n")
    table("question", "counts", "timing", "plain", "remembered", "timing / remembered", "plain / timing", "timing, answer spelled",
          "remembered, answer spelled")
    for kind, counts, least in told:
        for i in range(4):
            name = f"{kind} Q{i + 1}" if i < 3 else f"{kind} absent"
            ours, plain, near = (least[p, i, "search"] for p in bench.programs)
            row(name, counts[i], ours, plain, near, f"{ours / near:.2f}", f"{plain / ours:.2f}",
                least["timing", i, "answer"], least["remembered", i, "answer"])
    print("\n## Growth with entries: ns a question and a call, least sample\n")
    table("question", "entries", "counts", "timing", "a call")
    for name, size, count, nanos in grown:
        row(name, f"{size:,}", count, nanos, f"{nanos / int(count.split()[3]):.1f}")


def indexes(bench):
    questions = bench.folder / "index.questions"
    names = bench.folder / "index.names"
    print("\n## Sealed indexes of 4,096 names: ns a question, least sample\n")
    table("entries", "question", "counts", "timing", "plain", "remembered", "timing / remembered", "plain / timing")
    fetched = []
    for size in INDEXES:
        path = bench.folder / f"index-{size}.slx"
        counts = bench.check(questions, path)
        say(f"{path.name}: the same extents and counts")
        least = bench.measure(questions, path)
        texts = workloads.INDEX + [workloads.ABSENT]
        for i, text in enumerate(texts):
            ours, plain, near = (least[p, i, "search"] for p in bench.programs)
            text = text.replace("|", "\\|")
            row(f"{size:,}", f"`{text}`", counts[i], ours, plain, near, f"{ours / near:.2f}", f"{plain / ours:.2f}")
        said = [run(program + ["--next", path], names) for program in bench.programs.values()]
        if said.count(said[0]) != len(said):
            sys.exit(f"the programs differ over the slots of {path.name}")
        calls = int(said[0].split()[3])
        times, bench.times = bench.times, max(1, bench.times // 100)
        least = bench.measure(names, path, mode=["--next"])
        bench.times = times
        fetched.append((size, calls, *(least[p, 0, "fetch"] / calls for p in ["timing", "plain"])))
    print("\n## All names of an index, fetched in order: ns a `next`, least sample\n")
    table("entries", "calls", "timing", "plain, which copies a name's slots at once")
    for size, calls, ours, plain in fetched:
        row(f"{size:,}", f"{calls:,}", f"{ours:.1f}", f"{plain:.1f}")


def main():
    parser = argparse.ArgumentParser()
    parser.add_argument("--times", type=int, default=500)
    parser.add_argument("--rounds", type=int, default=3)
    parser.add_argument("--with", dest="with_", default="")
    options = parser.parse_args()
    if not TIMING.exists():
        sys.exit("first build crates/timing: cd crates/timing && rt run < stdin")
    with tempfile.TemporaryDirectory() as folder:
        folder = pathlib.Path(folder)
        workloads.write(folder)
        bench = Bench(options, folder)
        logs(bench)
        indexes(bench)


if __name__ == "__main__":
    main()
