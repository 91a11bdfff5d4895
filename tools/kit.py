"""The proved programs. Before one is run its sources are held against those that it was proved of; where they differ it is
proved and built again by `rt run`, with progress on standard error, and tried on its crate's stdin and stdout.

target/bin/PROGRAM is the program as it was built, so that no other build changes one that runs. target/run/PROGRAM has what was
proved: a hash of the sources (as rt's stamps: the kit, the machine, crates.txt, the files of each crate that the program reaches)
and one of the program itself. target/log/PROGRAM.out and .stdout have what rt said and what the program printed when it was tried.
"""
import contextlib
import fcntl
import hashlib
import os
import pathlib
import re
import select
import shutil
import signal
import subprocess
import sys
import time

from ends import Stopped, printable, say, tell

ROOT = pathlib.Path(__file__).resolve().parent.parent
TARGET = ROOT / "target"
PARTS = ("src", "specs", "proofs", "stdin", "stdout", "args", "data", "status")
# rt's lines: a crate is begun, and what came of it; the program is built and run; what rt waits for.
BEGUN = re.compile(r"rt: chose --jobs \d+ for (\w+)")
PROVED, NOT_PROVED = "logic=proved ", "logic=not-proved"
BUILT, WAITING = "rt: running out/", "rt: waiting for another rt"


def home():
    """The kit's folder."""
    rt = shutil.which("rt")
    if rt is None:
        raise Stopped("the Rattle kit is missing: no rt on the path")
    return pathlib.Path(os.environ.get("RATTLE_HOME") or pathlib.Path(rt).resolve().parent.parent)


# What a program is made of.


def listed():
    """crates.txt: the crates that each crate depends on."""
    lines = (line.split("#")[0].partition(":") for line in (ROOT / "crates.txt").read_text().splitlines())
    # Words after the name, as staticlib, are no part of it.
    return {head.split()[0]: rest.split() for head, _, rest in lines if head.strip()}


def reached(program):
    """The crates of the repository that a program is made of, with their dependencies, in the order in which rt proves them."""
    crates, met, found = listed(), set(), {}

    def reach(name):
        if name in crates and name not in met:
            met.add(name)
            for below in crates[name]:
                reach(below)
            found[name] = crates[name]

    reach(program)
    return found


def files(path):
    """The files at a path."""
    if os.path.isfile(path):
        yield path
    for folder, _, names in os.walk(path):
        yield from (os.path.join(folder, name) for name in names)


def hash_of(path):
    with open(path, "rb", buffering=0) as file:
        return hashlib.sha256(file.read()).hexdigest()


def sources(program):
    """One hash of everything that the program is proved and built from."""
    lines = [hash_of(home() / "KIT-ID"), os.uname().machine]
    for name, needs in reached(program).items():
        lines.append(f"{name}: {needs}")
        crate = os.path.join(crate_of(name), "")
        for part in PARTS:
            lines += [f"{path[len(crate):]} {hash_of(path)}" for path in sorted(files(crate + part))]
    return hashlib.sha256("\n".join(lines).encode("utf-8", "surrogateescape")).hexdigest()


def crate_of(program):
    return ROOT / "crates" / program


def made(program):
    """The program where rt builds it."""
    return crate_of(program) / "out" / program


def binary(program):
    return TARGET / "bin" / program


def record(program):
    """What was proved when the program was last built here: hashes of the sources and of the program."""
    try:
        return (TARGET / "run" / program).read_text().split()
    except OSError:
        return []


def is_proved(program):
    return binary(program).is_file() and record(program) == [sources(program), hash_of(binary(program))]


# Proving and building.


class Progress:
    """Crate by crate, how many of how many, and the time: on a terminal one line that is rewritten, else a line a crate."""

    def __init__(self, program):
        self.program, self.order = program, list(reached(program))
        self.done, self.began = 0, time.monotonic()
        self.last = ""
        self.live = bool(sys.stderr) and sys.stderr.isatty() and os.environ.get("TERM") != "dumb"

    def state(self, last):
        minutes, seconds = divmod(int(time.monotonic() - self.began), 60)
        return f"{self.program}: {self.done} of {len(self.order)} crates, {minutes}:{seconds:02}, {last}"

    def crate(self, name, seconds):
        # Of the crates before it that rt kept, and says nothing of, the count is enough.
        self.done, self.last = self.order.index(name) + 1, f"{name} proved ({int(seconds)} s)"
        if not self.live:
            say(self.state(self.last))

    def tick(self):
        if self.live:
            room = (os.get_terminal_size(2).columns or 80) - 1
            tell("\r\033[K" + self.state(self.last or "..")[:room])

    def clear(self):
        if self.live:
            tell("\r\033[K")


def lines_of(process):
    """What a process says, its lines as they come, and an empty one for each second without."""
    number, rest = process.stderr.fileno(), b""
    while True:
        if not select.select([number], [], [], 1)[0]:
            yield ""
            continue
        part = os.read(number, 65536)
        if not part:
            return
        *whole, rest = (rest + part).split(b"\n")
        yield from (line.decode("utf-8", "replace") for line in whole)


@contextlib.contextmanager
def started(words, folder, lock, given, out):
    """A process in a group of its own, which ends with this command; rt ends all that it started when it ends."""

    def leave(number, _):
        raise SystemExit(128 + number)

    # The lock goes with the process: it holds until rt ends.
    process = subprocess.Popen(
        words, cwd=folder, stdin=given, stdout=out, stderr=subprocess.PIPE, pass_fds=[lock], start_new_session=True,
    )
    ends = (signal.SIGINT, signal.SIGTERM, signal.SIGHUP)
    before = {number: signal.signal(number, leave) for number in ends if signal.getsignal(number) != signal.SIG_IGN}
    try:
        yield process
        process.wait()
    finally:
        if process.poll() is None:
            os.killpg(process.pid, signal.SIGTERM)
            process.wait()
        for number, action in before.items():
            signal.signal(number, action)


class Said:
    """What rt says: the crate that it is at and since when, the one that it could not prove, whether it got to run the program, and
    its last lines."""

    def __init__(self):
        self.crate, self.began = None, 0
        self.failed, self.built = None, False
        self.last = []

    def take(self, line, shown):
        self.last = [*self.last, line][-3:]
        begun = BEGUN.match(line)
        if begun:
            self.crate, self.began = begun[1], time.monotonic()
        elif line.startswith(PROVED) and self.crate in shown.order:
            shown.crate(self.crate, time.monotonic() - self.began)
        elif line.startswith(NOT_PROVED):
            self.failed = self.crate
        elif line.startswith(BUILT):
            self.built = True
        elif line.startswith(WAITING):
            shown.clear()
            say(line)


def log(program, kind):
    return TARGET / "log" / f"{program}.{kind}"


def opened(path):
    """A file of a crate, or nothing where there is none."""
    return open(path if path.is_file() else os.devnull, "rb")


def check(program, lock):
    """`rt run` of a program, on its crate's stdin, with progress; Stopped where that fails."""
    crate, shown, said = crate_of(program), Progress(program), Said()
    with contextlib.ExitStack() as files:
        given = files.enter_context(opened(crate / "stdin"))
        out = files.enter_context(open(log(program, "stdout"), "wb"))
        whole = files.enter_context(open(log(program, "out"), "w", encoding="utf-8"))
        process = files.enter_context(started(["rt", "run"], crate, lock, given, out))
        files.callback(shown.clear)
        for line in lines_of(process):
            if line:
                print(line, file=whole, flush=True)
                said.take(line, shown)
            shown.tick()
    why = fault(program, said, process.returncode)
    if why:
        raise Stopped(f"{program} is not run: {why}")
    say(shown.state("proved and built"))


def fault(program, said, status):
    """Why a program isn't taken for proved, built and right, or None."""
    if said.failed:
        return f"crate {said.failed} is NOT PROVED ({log(program, 'out')} has why)"
    if not said.built:
        return f"rt run failed ({log(program, 'out')} has all of it):\n" + "\n".join(said.last)
    with opened(crate_of(program) / "stdout") as wanted, opened(crate_of(program) / "status") as ends:
        if log(program, "stdout").read_bytes() != wanted.read() or status != int(ends.read() or 0):
            return f"crate {program} is proved, and its test failed ({log(program, 'stdout')} has what it wrote)"
    return None


def keep(program):
    """The program that rt built, put in the place of the one that is kept; one that runs goes on."""
    part = TARGET / "run" / f"{program}.part"
    shutil.copy(made(program), part)
    os.replace(part, binary(program))


def lock_file():
    try:
        for folder in ("bin", "log", "run"):
            (TARGET / folder).mkdir(parents=True, exist_ok=True)
        return open(TARGET / "run" / "lock", "ab")
    except OSError as why:
        raise Stopped(f"a program must be proved and built first, and {TARGET} can't be written: {why.strerror}") from None


@contextlib.contextmanager
def locked():
    """One command proves at a time; the others wait."""
    with lock_file() as lock:
        try:
            fcntl.flock(lock, fcntl.LOCK_EX | fcntl.LOCK_NB)
        except BlockingIOError:
            say("another command is proving and building here; waiting for it")
            fcntl.flock(lock, fcntl.LOCK_EX)
        yield lock.fileno()


def reason(program, now, known):
    if not made(program).is_file():
        return f"{program} is not built yet: it is proved and built first, which takes minutes"
    if not known:
        return f"{program}: seeing that it is proved of these sources; what is not is proved first, which may take minutes"
    what = "it" if known[0] == now else "a source"
    return f"{program}: {what} changed since it was built, so it is proved and built again, which may take minutes"


def prove(program, lock):
    now, known = sources(program), record(program)
    say(reason(program, now, known))
    (TARGET / "run" / program).unlink(missing_ok=True)
    check(program, lock)
    keep(program)
    if sources(program) == now:
        (TARGET / "run" / program).write_text(f"{now}\n{hash_of(binary(program))}\n")


def programs():
    return [name for name in listed() if (crate_of(name) / "src" / "main.rt").is_file()]


def ready(program):
    """Sees that a program is there and proved of the sources as they are."""
    if program not in programs():
        raise Stopped(f"there is no program {printable(program)}; there are {', '.join(programs())}")
    if is_proved(program):
        return
    with locked() as lock:
        # More than once where a source changes meanwhile.
        while not is_proved(program):
            prove(program, lock)


def command(program):
    """The words that run a program: under the kit's loader, and on Arm under its emulator."""
    ready(program)
    tools = home() / "on" / os.uname().machine / "toolchain"
    if not tools.is_dir():
        tools = home() / "toolchain"
    emulator = tools / "bin" / "qemu-x86_64"
    words = [emulator] if os.access(emulator, os.X_OK) else []
    words += [tools / "lib" / "ld-linux-x86-64.so.2", "--library-path", tools / "lib", binary(program)]
    return [str(word) for word in words]
