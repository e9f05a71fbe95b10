"""Puts single faults into definitions and code and names those that no proof and no table refuses.

    python3 tools/faults.py CRATE.. [--dry]

tools/faults.txt has the faults, three lines each: the file and what stands there, what comes in its place. Each is tried by `rt check` on a copy of
the repository, up to the crate that pins the definition: half a minute for one of alethe, after the first. --dry only looks that each place is
there once.
"""
import os
import shutil
import subprocess
import sys
import tempfile

HERE = os.path.dirname(os.path.abspath(__file__))
ROOT = os.path.dirname(HERE)


def faults():
    """Each fault: crate, the crate that pins it, file, what stands there, what comes in its place."""
    crate = pinned = None
    lines = [line.rstrip("\n") for line in open(os.path.join(HERE, "faults.txt"), encoding="utf8")]
    lines = [line for line in lines if line and not line.startswith("#")]
    while lines:
        if lines[0].startswith("crate "):
            crate, *above = lines.pop(0).split()[1:]
            pinned = above[-1] if above else crate
        else:
            file, old, new = lines[:3]
            del lines[:3]
            yield crate, pinned, file, old.lstrip("-").strip(), new.lstrip("+").strip().replace("\\n", "\n")


def tried(root, pinned, path, old, new):
    """The first error, or nothing where the fault survives."""
    with open(path, encoding="utf8") as f:
        text = f.read()
    with open(path, "w", encoding="utf8") as f:
        f.write(text.replace(old, new))
    out = subprocess.run(["rt", "check"], cwd=os.path.join(root, "crates", pinned), stdout=subprocess.PIPE, stderr=subprocess.STDOUT)
    with open(path, "w", encoding="utf8") as f:
        f.write(text)
    errors = [line for line in out.stdout.decode().splitlines() if ": error" in line]
    return errors[0].replace(root + "/", "")[:160] if errors else ""


def main():
    crates = [a for a in sys.argv[1:] if not a.startswith("--")]
    chosen = [fault for fault in faults() if fault[0] in crates]
    if not chosen:
        sys.exit("no crate with faults is named\n" + __doc__)
    bad = survive = 0
    with tempfile.TemporaryDirectory() as copy:
        root = ROOT if "--dry" in sys.argv else shutil.copytree(ROOT, os.path.join(copy, "root"), symlinks=True)
        for crate, pinned, file, old, new in chosen:
            path = os.path.join(root, "crates", crate, file)
            count = open(path, encoding="utf8").read().count(old)
            if count != 1:
                bad += 1
                print("%s has this %d times: %s" % (file, count, old))
            elif "--dry" not in sys.argv:
                error = tried(root, pinned, path, old, new)
                survive += not error
                print("%s | %s | %s" % ("refused " if error else "SURVIVES", new, error), flush=True)
    print("%d faults, %d survive, %d have no place" % (len(chosen), survive, bad))
    sys.exit(1 if survive or bad else 0)


if __name__ == "__main__":
    main()
