"""Runs a program on files, and raises `Wrong` if a run did something else than expected."""
import os
import pathlib
import subprocess

SECONDS = 60
# A pipe holds less than what is written behind them.
FIRST_BYTES = 300


class Wrong(Exception):
    """A run did something that it should not do."""


def wants(what, found, expected):
    """Refuses a value that is not the expected one."""
    if found != expected:
        raise Wrong(f"{what}: {str(found)[:200]} in place of {str(expected)[:200]}")


class Files:
    """A program, and a folder for files that are made."""

    def __init__(self, program, room):
        self.program = program
        self.room = pathlib.Path(room)

    def made(self, name, contents):
        """The name of a new file that holds these bytes."""
        path = self.room / name
        path.write_bytes(contents)
        return str(path)

    def run(self, *words, given=b""):
        """The status of a run, what it wrote, and its errors."""
        done = subprocess.run(
            [self.program, *words], input=given, capture_output=True, timeout=SECONDS, check=False
        )
        return done.returncode, done.stdout, done.stderr

    def started(self, *words, stderr, environment):
        """Starts a run, with a stream for its diagnostics and more variables of the environment."""
        return subprocess.Popen(
            [self.program, *words],
            stdin=subprocess.PIPE, stdout=subprocess.PIPE, stderr=stderr, env={**os.environ, **environment},
        )

    def gives(self, expected, *words, given=b""):
        """Refuses a run that does not write exactly these bytes, with status 0."""
        wants("the run", self.run(*words, given=given), (0, expected, b""))

    def tells(self, expected, *words, given=b""):
        """Refuses a run whose diagnostics are not exactly these, with status 1."""
        wants("the run", self.run(*words, given=given), (1, b"", expected.encode()))

    def mistake(self, *words):
        """Refuses a run that does not report a mistake in the arguments."""
        status, written, told = self.run(*words)
        wants("the status", status, 2)
        wants("what is written", written, b"")
        if b"cuvolemin" not in told or b"Usage:" not in told:
            raise Wrong(f"the usage is missing: {told[:200]}")

    def reads_some(self, *words, given):
        """The first bytes that a run writes, and its diagnostics if the pipe is closed then."""
        name = self.made("given", given)
        started = subprocess.Popen([self.program, *words, name], stdout=subprocess.PIPE, stderr=subprocess.PIPE)
        first = started.stdout.read(FIRST_BYTES)
        started.stdout.close()
        told = started.stderr.read()
        started.stderr.close()
        started.wait(timeout=SECONDS)
        return first, told
