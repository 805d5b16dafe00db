"""What the checks share: a check is a line as it goes; the last line counts them."""
import os
import pathlib
import subprocess
import sys
import time

TOP = pathlib.Path(__file__).resolve().parent.parent.parent
ARCHIVE = TOP / "target/staticlib/libslot.a"


class Checks:
    def __init__(self):
        self.passed = self.failed = 0
        self.began = time.monotonic()

    def part(self, name):
        print(f"-- {name} ({time.monotonic() - self.began:.0f} s)", flush=True)

    def check(self, name, holds, detail=""):
        if holds:
            self.passed += 1
            print(f"ok    {name}", flush=True)
        else:
            self.failed += 1
            print(f"FAIL  {name}\n{detail}".rstrip(), flush=True)
        return holds

    def command(self, name, words, **options):
        """A command that must end with status 0."""
        ended = run(words, **options)
        return self.check(name, ended.returncode == 0, f"status {ended.returncode}\n{ended.stdout}{ended.stderr}")

    def end(self):
        print(f"{self.passed} passed, {self.failed} failed")
        return 0 if self.failed == 0 and self.passed > 0 else 1


def run(words, stdin=subprocess.DEVNULL, env=None, **options):
    """Runs a command of words with no standard input, and keeps what it writes as text."""
    options.setdefault("cwd", TOP)
    options.setdefault("stdout", subprocess.PIPE)
    options.setdefault("stderr", subprocess.PIPE)
    return subprocess.run([str(word) for word in words], stdin=stdin, env={**os.environ, **(env or {})}, text=True, errors="replace", check=False, **options)


def live(words):
    """Runs a long command whose lines are shown as they come."""
    sys.stdout.flush()
    return subprocess.run([str(word) for word in words], cwd=TOP, stdin=subprocess.DEVNULL, check=False).returncode


def image(words, length=0):
    """Little-endian words from address 0, then zeros up to a length."""
    return b"".join(word.to_bytes(4, "little") for word in words).ljust(length, b"\0")
