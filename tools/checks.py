"""What the tests of tools share: the count of checks, files, and runs of tools and the program."""
import os
import subprocess

HERE = os.path.dirname(os.path.realpath(__file__))
PATIENCE = 120


class Checks:
    """Counts checks, and prints a line for each. Files that it makes stand in a folder."""

    def __init__(self, program, folder):
        self.program, self.folder, self.passed, self.failed = program, folder, 0, 0

    def check(self, what, good, more=""):
        self.passed, self.failed = self.passed + bool(good), self.failed + (not good)
        print(f"{'passed' if good else 'failed'}: {what}" + ("" if good else f": {more}"),
              flush=True)

    def same(self, what, got, wanted):
        self.check(what, got == wanted, f"got {got!r:.600}, wanted {wanted!r:.600}")

    def end(self):
        """The last line, and the status."""
        print(f"{self.passed} passed, {self.failed} failed")
        return 0 if self.failed == 0 else 1

    def file(self, name, text=""):
        """The path of a file with this text, in which a character is an octet."""
        with open(f"{self.folder}/{name}", "w", encoding="latin-1", newline="") as it:
            it.write(text)
        return it.name

    def run(self, words, given=""):
        """A run's status, and what it printed on standard output and on standard error."""
        done = subprocess.run(words, input=given.encode("latin-1"), capture_output=True,
                              timeout=PATIENCE)
        return done.returncode, done.stdout.decode("latin-1"), done.stderr.decode("latin-1")

    def tool(self, name, *words, given=""):
        return self.run([f"{HERE}/{name}", *words], given)

    def replay(self, tables, scenario, *words):
        """Replays a scenario's text over a file of tables: the status, and what is printed."""
        return self.run([self.program, "replay", tables, "-", *words], scenario)[:2]


def read(path):
    """The text of a file, in which a character is an octet."""
    with open(path, encoding="latin-1", newline="") as it:
        return it.read()
