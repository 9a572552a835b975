"""Times the program on large lawful cases.

usage: measure.py [RUNS]      (default 15; the program must be built: ./plancheck < examples/worked.case)

Each figure is the smallest of so many runs, less the smallest time of a run on the empty text, which is what it takes
to start a process.
"""
import os
import subprocess
import sys
import tempfile
import time

import generate

PROGRAM = os.environ.get("PLANCHECK") or os.path.join(os.path.dirname(os.path.abspath(__file__)), "..", "target", "bin", "plancheck")


def seconds(word, text, runs):
    best = None
    for _ in range(runs):
        begun = time.perf_counter()
        done = subprocess.run([PROGRAM, word], input=text, capture_output=True)
        took = time.perf_counter() - begun
        best = took if best is None else min(best, took)
    return best, done.stdout.decode().split()


def main():
    runs = int(sys.argv[1]) if len(sys.argv) > 1 else 15
    idle, _ = seconds("check", b"", runs)
    print(f"start of a process: {idle * 1e3:.2f} ms")
    print("| case | bytes | rows | outcomes | check, ms | outcomes per second | rank, ms |")
    print("|---|---|---|---|---|---|---|")
    with tempfile.TemporaryDirectory() as folder:
        for name in generate.write(folder):
            text = open(os.path.join(folder, name + ".case"), "rb").read()
            took, words = seconds("check", text, runs)
            ranking, ranked = seconds("rank", text, runs)
            if words[0] != "accepted" or ranked[:3] != words[:3]:
                sys.exit(f"{name}: {' '.join(words)}, {' '.join(ranked[:3])}")
            work = max(took - idle, 1e-9)
            rows, outcomes = int(words[1]), int(words[2])
            print(f"| {name} | {len(text):,} | {rows:,} | {outcomes:,} | {work * 1e3:.2f} | {outcomes / work:,.0f} | {(ranking - idle) * 1e3:.2f} |")


if __name__ == "__main__":
    main()
