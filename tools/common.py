"""What the tools that read texts share: their words, the files that they open, how they end.

Statuses are those of the program: 0 all was done; 2 the words are no command; 3 a text is bad;
4 a file can't be opened or read. A tool that has more says so at its head.
"""
import argparse
import signal
import sys


class BadText(Exception):
    """A text is bad from this line on; lines count from 1."""

    def __init__(self, line, reason):
        super().__init__(f"line {line}: {reason}")
        self.line, self.reason = line, reason


def parser(doc):
    """What reads a tool's words, with its head as the help."""
    return argparse.ArgumentParser(
        description=doc, formatter_class=argparse.RawDescriptionHelpFormatter)


def end(message, status=3):
    """Ends the tool with a line on standard error."""
    sys.stderr.write(f"{sys.argv[0].rsplit('/', 1)[-1]}: {message}\n")
    sys.exit(status)


def open_text(path):
    """A file, or standard input for `-`, as text in which a character is an octet."""
    if path == "-":
        return open(0, encoding="latin-1", newline="\n")
    try:
        return open(path, encoding="latin-1", newline="\n")
    except OSError as fault:
        end(f"can't open {path}: {fault.strerror}", 4)


def lines_of(text):
    """The lines of a text, without LF, and without CR before it (docs/PROTOCOL.md, Texts)."""
    lines = text.split("\n")
    last = lines.pop()
    lines = [line.removesuffix("\r") for line in lines]
    return lines + [last] if last else lines


def run(main):
    """Runs a tool. Who reads its output may go away, and whoever runs it may end it."""
    signal.signal(signal.SIGPIPE, signal.SIG_DFL)
    try:
        sys.exit(main())
    except KeyboardInterrupt:
        sys.exit(130)
    except OSError as fault:
        end(f"{fault.filename or 'reading or writing'}: {fault.strerror}", 4)
