"""Whole runs with the answers that they should get: the file that the program `run_cases` replays.

    python3 tools/run_cases.py ORACLE [--count N] [--seed N] [--each N]
    python3 tools/run_cases.py --check    says whether the file begins with the cases of the table, and has as many as it says

They are the cases of the table (tools/marked.txt, K1 to K12 among them) and random runs of every rule with the Rust's own answers, as
tools/random_cases.py makes them: --count runs are tried with --seed, and --each of one verdict and rule are kept. The file that is there was
made with --count 4000 --each 12; the program's `stdout` has its number of runs.

The file crates/run_cases/data/cases: 4 bytes, how many runs; then for each run twelve numbers of 4 bytes
    the lengths of the book and of the run, the limit, the lengths of the work area and of the two out areas
    the verdict, the accepted steps, their visits
    1 where the elaboration, marked again, gives the same answer, else 0
    the bytes that are written to each out area
and the bytes of the book, of the run, and of what is written to each out area. All numbers are little-endian.

The second marking agrees unless refusals 1 to 8 arise or an accepted step of rule 6 has more arguments than literals: then la_generic refuses it
with 20 (demand 3's third premise). It is worked out from the bytes here, and no program of this repository is asked.
"""
import os
import struct
import subprocess
import sys
import tempfile

HERE = os.path.dirname(os.path.abspath(__file__))
FILE = os.path.join(HERE, "..", "crates", "run_cases", "data", "cases")


def surplus(run, steps):
    """Whether one of the first steps is a bounded_farkas with more arguments than literals."""
    marks = []
    for k in range(0, len(run), 4):
        if run[k : k + 1] == b"S":
            marks.append([run[k + 1], 0, 0])
        elif run[k : k + 1] == b"C":
            marks[-1][1] += 1
        elif run[k : k + 1] == b"A":
            marks[-1][2] += 1
    return any(rule == 6 and literals < args for rule, literals, args in marks[:steps])


def packed(line):
    fields = line.split(" # ")[0].split()
    book, run, outrun, outtail = (b"" if f == "-" else bytes.fromhex(f) for f in fields[:2] + fields[9:11])
    limit, work, o, t, verdict, steps, visits = map(int, fields[2:9])
    again = not 1 <= verdict <= 8 and not surplus(run, steps)
    numbers = (len(book), len(run), limit, work, o, t, verdict, steps, visits, again, len(outrun), len(outtail))
    return struct.pack("<12I", *numbers) + book + run + outrun + outtail


def lines_of(path):
    with open(path) as f:
        return f.readlines()


def table():
    """The lines of the table's cases."""
    with tempfile.TemporaryDirectory() as d:
        path = os.path.join(d, "table")
        subprocess.run([sys.executable, os.path.join(HERE, "marked.py"), "--cases", path], check=True, stdout=subprocess.DEVNULL)
        return lines_of(path)


def cases_of(lines):
    return [packed(line) for line in lines if int(line.split()[2]) < 2**32]


def stored():
    """The runs of the file, each as it is packed."""
    with open(FILE, "rb") as f:
        data = f.read()
    at, runs = 4, []
    for _ in range(*struct.unpack_from("<I", data)):
        h = struct.unpack_from("<12I", data, at)
        end = at + 48 + h[0] + h[1] + h[10] + h[11]
        runs.append(data[at:end])
        at = end
    if at != len(data):
        sys.exit("run_cases.py: the file's length is not that of its runs")
    return runs


def check():
    runs, wanted = stored(), cases_of(table())
    wrong = [i for i, (run, want) in enumerate(zip(runs, wanted)) if run != want]
    for i in wrong:
        print("run %d of crates/run_cases/data/cases is not the table's" % i)
    print("run_cases.py: %d runs, the first %d are the table's, %d differ" % (len(runs), len(wanted), len(wrong)))
    sys.exit(1 if wrong or len(runs) < len(wanted) else 0)


def main():
    if sys.argv[1:] == ["--check"]:
        check()
    oracle, rest = sys.argv[1], sys.argv[2:]
    with tempfile.TemporaryDirectory() as d:
        tried = os.path.join(d, "random")
        subprocess.run([sys.executable, os.path.join(HERE, "random_cases.py"), oracle, tried, *rest], check=True)
        lines = table() + lines_of(tried)
    cases = cases_of(lines)
    with open(FILE, "wb") as f:
        f.write(struct.pack("<I", len(cases)) + b"".join(cases))
    print("%d runs, %d bytes" % (len(cases), os.path.getsize(FILE)))


if __name__ == "__main__":
    main()
