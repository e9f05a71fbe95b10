"""Holds the static library against the Rust on random runs of every rule, and on the table's cases.

    python3 tools/compare.py [SOURCE] [--steps N] [--seed N] [--jobs N]

SOURCE is the folder of the oracle, which runs the Rust's own rule files on books and runs; tools/oracle builds it first. Runs are made by
tools/random_cases.py, which asks the oracle for the answers, until N steps were accepted (1,000,000 where nothing is said); each is then
marked and elaborated by the library (tools/compare.c), on memory that is not clean, and every answer and every lent byte is compared. The
library is proved and built first, by tools/staticlib. Exit status: 0 if nothing differs.
"""
import argparse
import os
import re
import struct
import subprocess
import sys
import tempfile
from collections import Counter
from concurrent.futures import ThreadPoolExecutor

from run_cases import packed

HERE = os.path.dirname(os.path.abspath(__file__))
ROOT = os.path.dirname(HERE)
CHUNK = 10000


def build():
    subprocess.run([os.path.join(HERE, "staticlib")], check=True)
    os.makedirs(os.path.join(ROOT, "target", "library"), exist_ok=True)
    program = os.path.join(ROOT, "target", "library", "compare")
    library = os.path.join(ROOT, "target", "staticlib", "libyirtabun.a")
    words = ["cc", "-std=c99", "-Wall", "-Wextra", "-O2", "-I" + os.path.join(ROOT, "include"), os.path.join(HERE, "compare.c"), library, "-o", program]
    subprocess.run(words, check=True)
    return program


def replay(program, lines, folder, name):
    """Runs, accepted steps, visits and how many runs differ; and the steps by rule and the runs by verdict."""
    cases = [packed(line) for line in lines if int(line.split()[2]) < 2**32]
    path = os.path.join(folder, name)
    with open(path, "wb") as f:
        f.write(struct.pack("<I", len(cases)) + b"".join(cases))
    out = subprocess.run([program, path], stdout=subprocess.PIPE).stdout.decode()
    os.remove(path)
    told, last = out.splitlines()[:-1], out.splitlines()[-1]
    for line in told[:5]:
        print("%s: %s" % (name, line))
    return [int(n) for n in re.findall(r"\d+", last)]


def accepted(line):
    """The rules of the accepted steps of a case."""
    fields = line.split()
    run = b"" if fields[1] == "-" else bytes.fromhex(fields[1])
    rules = [run[k + 1] for k in range(0, len(run) - 3, 4) if run[k : k + 1] == b"S"]
    return rules[: int(fields[7])]


def chunk(program, oracle, seed, folder):
    path = os.path.join(folder, "random%d" % seed)
    words = [sys.executable, os.path.join(HERE, "random_cases.py"), oracle, path, "--count", str(CHUNK), "--seed", str(seed), "--wide", "5"]
    subprocess.run(words, check=True, stdout=subprocess.DEVNULL)
    with open(path) as f:
        lines = f.readlines()
    os.remove(path)
    rules, verdicts = Counter(), Counter()
    for line in lines:
        rules.update(accepted(line))
        verdicts[int(line.split()[6])] += 1
    return replay(program, lines, folder, "seed %d" % seed), rules, verdicts


def main():
    parser = argparse.ArgumentParser()
    parser.add_argument("source", nargs="*")
    parser.add_argument("--steps", type=int, default=1000000)
    parser.add_argument("--seed", type=int, default=1)
    parser.add_argument("--jobs", type=int, default=os.cpu_count())
    words = parser.parse_args()
    folder = subprocess.run([os.path.join(HERE, "oracle"), *words.source], check=True, stdout=subprocess.PIPE).stdout.decode().strip()
    oracle = os.path.join(folder, "oracle-visits")
    program = build()
    total, rules, verdicts = [0, 0, 0, 0], Counter(), Counter()
    with tempfile.TemporaryDirectory() as folder, ThreadPoolExecutor(words.jobs) as pool:
        table = os.path.join(folder, "table")
        subprocess.run([sys.executable, os.path.join(HERE, "marked.py"), "--cases", table], check=True, stdout=subprocess.DEVNULL)
        with open(table) as f:
            found = replay(program, f.readlines(), folder, "the table")
        print("the table: %d runs, %d differ" % (found[0], found[3]))
        wrong, seed = found[3], words.seed
        while total[1] < words.steps:
            seeds = range(seed, seed + words.jobs)
            for numbers, by_rule, by_verdict in pool.map(lambda s: chunk(program, oracle, s, folder), seeds):
                total = [a + b for a, b in zip(total, numbers)]
                rules += by_rule
                verdicts += by_verdict
            seed += words.jobs
    print("%d random runs, %d accepted steps, %d visits, %d runs differ; seeds %d to %d" % (*total, words.seed, seed - 1))
    print("accepted steps by rule: " + ", ".join("%d: %d" % x for x in sorted(rules.items())))
    print("runs by verdict: " + ", ".join("%d: %d" % x for x in sorted(verdicts.items())))
    sys.exit(1 if wrong + total[3] else 0)


if __name__ == "__main__":
    main()
