"""Calls programs as a list says, and says which answers differ: python3 tools/calls.py LIST PROGRAM..

Each call is made in a temporary folder of its own, once for each program. In the list a line that begins with # is a comment, and

    == WORDS             begins a call, and says what it shows
    put NAME ..          these files of examples/ are in the folder
    make BOOK RUN TEXT   a book and a run that tools/make_run.py makes of a text
    zeros NAME N         a file of N bytes 0
    hex NAME BYTES       a file of bytes, two digits each
    folder NAME          a folder
    link NAME TARGET     a symbolic link
    words WORD ..        the words of the command line, as a shell reads them
    full                 no file takes a byte, nor does standard output, as if the disk were full
    status N             the exit status is N; it is 0 where nothing is said
    out TEXT             standard output has this somewhere
    lists TEXT           a line of standard output, which has these lines and no others, in this order
    err TEXT             standard error has this somewhere
    makes NAME N         the call makes a file of N bytes

Without `out` and `lists` nothing goes to standard output, without `err` nothing to standard error. What is in the folder before is there
afterwards as it was, and beside it there is nothing but what the call makes.
"""
import os
import resource
import shlex
import signal
import subprocess
import sys
import tempfile

from generated import there
from text_reader import Reader


class Call:
    def __init__(self, line, name):
        self.line, self.name = line, name
        self.before, self.words, self.full, self.status = [], [], False, 0
        self.out, self.lists, self.err, self.makes = [], [], [], {}

    def read(self, word, rest):
        if word in ("put", "make", "zeros", "hex", "folder", "link"):
            self.before.append((word, rest))
        elif word == "words":
            self.words = shlex.split(rest)
        elif word == "full":
            self.full = True
        elif word == "status":
            self.status = int(rest)
        elif word in ("out", "lists", "err"):
            getattr(self, word).append(rest)
        elif word == "makes":
            name, size = rest.split()
            self.makes[name] = int(size)
        else:
            raise ValueError(word)

    def lay_out(self):
        """Puts what is there before the call into the folder where this program is."""
        for word, rest in self.before:
            name, _, more = rest.partition(" ")
            if word == "put":
                files = {n: there("examples/" + n) for n in rest.split()}
            elif word == "make":
                run, _, text = more.partition(" ")
                reader = Reader().read(text)
                files = {name: reader.book.bytes(), run: reader.run()}
            elif word in ("zeros", "hex"):
                files = {name: bytes(int(more)) if word == "zeros" else bytes.fromhex(more)}
            else:
                files = {}
                os.mkdir(name) if word == "folder" else os.symlink(more, name)
            for path, data in files.items():
                with open(path, "xb") as f:
                    f.write(data)

    def differences(self, program):
        """What differs, in words."""
        self.lay_out()
        before = found()
        with tempfile.TemporaryFile() as to:
            usual = {"stdin": subprocess.DEVNULL, "stdout": to, "stderr": subprocess.PIPE}
            done = subprocess.run([program, *self.words], preexec_fn=no_room if self.full else None, **usual)
            to.seek(0)
            out, err = (part.decode(errors="replace") for part in (to.read(), done.stderr))
        if done.returncode != self.status:
            yield "exit status %d, expected %d" % (done.returncode, self.status)
        if self.lists and out.splitlines() != self.lists:
            yield "standard output is another list: %r" % out
        for where, said, wanted in (("output", out, self.out), ("error", err, self.err)):
            for text in wanted:
                if text not in said:
                    yield "standard %s has not %r: %r" % (where, text, said)
            if said and not wanted and not (where == "output" and self.lists):
                yield "standard %s has something: %r" % (where, said)
        after = found()
        for name in sorted(before):
            if after.get(name) != before[name]:
                yield "%s was there before, and is not as it was" % name
        for name in sorted(set(after) - set(before)):
            if name not in self.makes:
                yield "%s is left behind" % name
        for name, size in self.makes.items():
            if after.get(name, ("", b""))[0] != "file" or len(after[name][1]) != size:
                yield "%s is no file of %d bytes" % (name, size)


def no_room():
    """Lets this process write nothing to files."""
    signal.signal(signal.SIGXFSZ, signal.SIG_IGN)
    resource.setrlimit(resource.RLIMIT_FSIZE, (0, 0))


def found():
    """What is in this folder: the kind of each name and its bytes, or where it leads."""
    what = {}
    for name in os.listdir("."):
        if os.path.islink(name):
            what[name] = ("link", os.readlink(name))
        elif os.path.isdir(name):
            what[name] = ("folder", sorted(os.listdir(name)))
        else:
            what[name] = ("file", there(os.path.abspath(name)))
    return what


def read_calls(path):
    calls = []
    with open(path) as f:
        lines = f.read().splitlines()
    for number, line in enumerate(lines, 1):
        word, _, rest = line.strip().partition(" ")
        if not word or word.startswith("#"):
            continue
        if word == "==":
            calls.append(Call(number, rest))
        else:
            try:
                calls[-1].read(word, rest)
            except (ValueError, IndexError):
                sys.exit("%s:%d: this is no line of a call: %s" % (path, number, line))
    return calls


def main():
    if len(sys.argv) < 3:
        sys.exit(__doc__)
    path, programs = sys.argv[1], [os.path.abspath(p) for p in sys.argv[2:]]
    calls, wrong, home = read_calls(path), 0, os.getcwd()
    for program in programs:
        for call in calls:
            with tempfile.TemporaryDirectory() as folder:
                os.chdir(folder)
                differ = list(call.differences(program))
                os.chdir(home)
            wrong += bool(differ)
            for what in differ:
                print("%s:%d: %s: %s: %s" % (path, call.line, os.path.basename(program), call.name, what))
    print("%s: %d calls, %d differ" % (path, len(calls) * len(programs), wrong))
    sys.exit(1 if wrong else 0)


if __name__ == "__main__":
    main()
