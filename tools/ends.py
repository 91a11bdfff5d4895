"""How the commands speak and end: words on standard error, no traceback, an exit status that says what happened."""
import os
import signal
import sys

FAILED = 2
# Python's own may be without a buffer, and then writes less than it is given where a disk is full.
OUT = open(1, "wb", closefd=False) if sys.stdout else None


class Stopped(Exception):
    """Why a command can't go on: wrong use, no program, or no way to write. Without words nobody is told."""


def printable(text):
    """No text of a file or a file's name may steer the terminal or break a line."""
    return "".join(c if c.isprintable() else c.encode("unicode_escape").decode() for c in text)


def named(path):
    return printable(os.fsencode(path).decode("utf-8", "backslashreplace")) or "''"


class Usage(Stopped):
    """The first part of a command's text."""

    def __init__(self, text):
        super().__init__(text.split("\n\n")[0])


def parsed(arguments, known):
    """Options and files. After -- everything is a file, and - is one."""
    asked, files, rest = set(), [], list(arguments)
    while rest:
        word = rest.pop(0)
        if word == "--":
            return asked, files + rest
        if word in known:
            asked.add(word)
        elif word.startswith("-") and word != "-":
            raise Stopped(f"unknown option {printable(word)}; --help has the use")
        else:
            files.append(word)
    return asked, files


# Standard output.


def unwritten(why):
    # What is still to be written goes nowhere, so that Python's own end is quiet.
    silence(1)
    # A reader that wants no more, as `head`, needs no words.
    return Stopped() if isinstance(why, BrokenPipeError) else Stopped(f"can't write: {why.strerror}")


def show(text):
    """A line on standard output."""
    put((text + "\n").encode(sys.stdout.encoding, "backslashreplace"))


def put(data):
    """Bytes on standard output."""
    try:
        OUT.write(data)
    except OSError as why:
        raise unwritten(why) from None


def flush():
    try:
        OUT.flush()
    except OSError as why:
        raise unwritten(why) from None


# Standard error.


def say(text):
    """A line on standard error, after what standard output has so far."""
    flush()
    tell(text + "\n")


def tell(text):
    try:
        if sys.stderr:
            sys.stderr.write(text)
            sys.stderr.flush()
    except OSError:
        silence(2)


def silence(number):
    os.dup2(os.open(os.devnull, os.O_WRONLY), number)


# The end.


def ended(name, main, words):
    """What a command has to say of its end, and its status."""
    try:
        if sys.stdout is None:
            raise Stopped("can't write: standard output is closed")
        status = main(words)
        flush()
        return "", status
    except Usage as use:
        return f"{use}\n", FAILED
    except Stopped as why:
        return f"{name}: {why}\n" if why.args else "", FAILED
    except OSError as why:
        return f"{name}: {named(why.filename or '')}: {why.strerror}\n", FAILED
    except Exception as why:
        # Python's own status would be 1, which says something else.
        return f"{name}: a fault of this command: {type(why).__name__}: {why}\n", FAILED


def run(name, main):
    """Runs a command and ends with its status."""
    # Ctrl-C ends the command as it ends any program, without a word.
    if signal.getsignal(signal.SIGINT) is signal.default_int_handler:
        signal.signal(signal.SIGINT, signal.SIG_DFL)
    if sys.stderr:
        sys.stderr.reconfigure(errors="backslashreplace")
    words, status = ended(name, main, sys.argv[1:])
    tell(words)
    sys.exit(status)
