"""Starts the built program over a file, line by line or with a whole script. The tools beside it, demo/crash, tests/
and bench/run use it."""
import os
import pathlib
import select
import subprocess
import sys
import tempfile
import threading
import time

TOP = pathlib.Path(__file__).resolve().parent.parent
CRATE = TOP / "crates" / "rbsh"
BUILT = CRATE / "out" / "rbsh"

# How long a run may take, in seconds, before it counts as one that hangs.
DEADLINE = 60

UNIT = 2048
LAST_KEY = 2**64 - 1

# How many blocks a run has in memory: as many as `gen` has, and at most.
FRAMES, MOST_FRAMES = 64, 4096

STATUSES = ["Done", "Usage", "SourceFault", "DiskFault", "SinkFault", "NotAStore", "NoMemory", "NotEmpty", "TooLong"]


class Wrong(Exception):
    """What the program did isn't what it is to do."""


def find_program(words=None):
    """The program that the first of the words or RBSH names, else the repository's, which is built if it isn't there.
    The words are those of the command line, where no others are given."""
    words = sys.argv[1:] if words is None else words
    named = words[0] if words else os.environ.get("RBSH")
    if named:
        return os.path.abspath(named)
    if not BUILT.is_file():
        build()
    if any(source.stat().st_mtime > BUILT.stat().st_mtime for source in TOP.glob("crates/*/src/*.rt")):
        print("note: a source is newer than crates/rbsh/out/rbsh, which is taken as it is", file=sys.stderr)
    return str(BUILT)


def built_program():
    """The program that RBSH names, else the repository's; ends with a word where it wasn't built."""
    program = os.environ.get("RBSH") or str(BUILT)
    if not os.access(program, os.X_OK):
        sys.exit(f"no program at {program}: build it by demo/run, or name another one by RBSH=PROGRAM")
    return os.path.abspath(program)


def build():
    """Proves and builds the program, as demo/run does."""
    print("proving and building rbsh: README.md says how long that takes the first time", file=sys.stderr)
    with tempfile.TemporaryDirectory() as folder:
        words = [f"{folder}/made.rb", "format", "tables=1", "blocks=1", "segments=1", "log=64"]
        built = subprocess.run(["rt", "run", "--", *words], cwd=CRATE, stdout=subprocess.PIPE, stderr=subprocess.STDOUT)
    if built.returncode != 0 or not BUILT.is_file():
        sys.exit(built.stdout.decode(errors="replace") + "the program wasn't built")


def format_words(file, log=64, tables=1, blocks=1, segments=1):
    return [str(file), "format", f"tables={tables}", f"blocks={blocks}", f"segments={segments}", f"log={log}"]


def run_words(file, frames=FRAMES):
    return [str(file), "run", f"frames={frames}"]


def gen_words(file, count):
    return [str(file), "gen", str(count)]


class Ended:
    """How a run ended, and what it wrote."""

    def __init__(self, status, out, err):
        self.status, self.out, self.err = status, out, err

    def wants(self, status, out=None, cause=""):
        """Fails unless the run ended with the status, one line on standard error with its name and a cause that ends so,
        and these replies."""
        if self.status < 0:
            raise Wrong(f"killed by signal {-self.status}")
        if self.status != status:
            raise Wrong(f"status {self.status} in place of {status} {STATUSES[status]}: {self.err!r}")
        first, *more = self.err.decode(errors="replace").splitlines() or [""]
        named = first.startswith(STATUSES[status] + ": ") and first.endswith(cause) if status else not first
        if not named or more and STATUSES[status] != "Usage":
            raise Wrong(f"standard error has {self.err[:200]!r} at status {status}")
        if out is not None and self.out != out:
            raise Wrong(f"replies {shortened(self.out)} in place of {shortened(out)}")
        return self

    def wants_status(self, status):
        """Fails unless the run ended with the status, whatever it wrote."""
        if self.status != status:
            raise Wrong(f"status {self.status} in place of {status}: {shortened(self.out + self.err)}")
        return self


def shortened(text):
    return repr(text if len(text) <= 120 else text[:60] + b" .. " + text[-60:])


def run(words, script=b"", **how):
    """One run of the words with a script on standard input, or with the streams that `how` names."""
    if "stdin" not in how:
        how["input"] = script
    how = {"stdout": subprocess.PIPE, "stderr": subprocess.PIPE, "timeout": DEADLINE, **how}
    try:
        ended = subprocess.run(words, **how)
    except subprocess.TimeoutExpired:
        raise Wrong(f"no end within {DEADLINE} seconds")
    return Ended(ended.returncode, ended.stdout or b"", ended.stderr or b"")


class Session:
    """A run that is fed while it goes, and whose replies are read as they come."""

    def __init__(self, words, env=None):
        pipe = subprocess.PIPE
        self.process = subprocess.Popen(words, stdin=pipe, stdout=pipe, stderr=subprocess.DEVNULL, bufsize=0, env=env)
        self.read = b""
        self.feeder = None

    def __enter__(self):
        return self

    def __exit__(self, *_):
        if self.process.poll() is None:
            self.kill()

    def send(self, text):
        self.process.stdin.write(text)

    def feed(self, pieces, ends=False):
        """Sends the pieces beside what else is done, as long as the run takes them; and then the end of its input, if
        that ends there."""

        def send_all():
            try:
                for piece in pieces:
                    self.process.stdin.write(piece)
                if ends:
                    self.process.stdin.close()
            except BrokenPipeError:
                pass

        self.feeder = threading.Thread(target=send_all, daemon=True)
        self.feeder.start()

    def more(self, seconds):
        """Reads what comes within so many seconds; False at the end of the replies."""
        ready, _, _ = select.select([self.process.stdout], [], [], max(seconds, 0))
        if not ready:
            return True
        got = os.read(self.process.stdout.fileno(), 65536)
        self.read += got
        return bool(got)

    def reply(self, seconds=DEADLINE):
        """The next line that was written."""
        until = time.monotonic() + seconds
        while b"\n" not in self.read:
            if time.monotonic() > until:
                raise Wrong(f"no reply within {seconds} seconds")
            if not self.more(until - time.monotonic()):
                raise Wrong("the program ended before a reply")
        line, self.read = self.read.split(b"\n", 1)
        return line

    def rest(self, seconds=DEADLINE):
        """All that is written up to the end of the replies."""
        until = time.monotonic() + seconds
        while self.more(until - time.monotonic()):
            if time.monotonic() > until:
                raise Wrong(f"no end within {seconds} seconds")
        return self.read

    def ask(self, line):
        """Sends one line, and reads its reply before anything else is sent."""
        self.send(line + b"\n")
        return self.reply()

    def peak(self):
        """The most memory that was resident so far, and the most that was reserved, in kB."""
        with open(f"/proc/{self.process.pid}/status") as status:
            fields = dict(line.split(":", 1) for line in status)
        return int(fields["VmHWM"].split()[0]), int(fields["VmPeak"].split()[0])

    def kill(self):
        """Ends the run by SIGKILL, and reads all that it wrote before."""
        self.process.kill()
        while self.more(DEADLINE):
            pass
        return self.end()

    def end(self):
        """Closes standard input and waits for the end."""
        if self.feeder:
            self.feeder.join(DEADLINE)
        self.process.stdin.close()
        try:
            status = self.process.wait(DEADLINE)
        except subprocess.TimeoutExpired:
            self.process.kill()
            raise Wrong(f"no end within {DEADLINE} seconds")
        self.process.stdout.close()
        return status
