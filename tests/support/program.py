"""The program under test: where it is, how it is run, and how a run ended."""

import contextlib
import dataclasses
import os
import resource
import signal
import subprocess
import tempfile
import threading
from pathlib import Path

TESTS = Path(__file__).resolve().parent.parent
CASES = TESTS / "cases"
BUILT = TESTS.parent / "crates" / "dnsfleet" / "out" / "dnsfleet"

# A run that takes longer hangs.
LONGEST_RUN = 120

_used = BUILT


def use(path):
    """Has the tests run another build of the program."""
    global _used
    _used = Path(path).resolve()


def path():
    """The build that the tests run."""
    return _used


def shown(octets):
    """Octets as a report shows them."""
    return octets.decode("utf-8", "backslashreplace")


@dataclasses.dataclass(frozen=True)
class Ended:
    """How a run ended: its status, what is on standard output, and what is on standard error."""

    status: int
    output: bytes = b""
    errors: bytes = b""

    def __str__(self):
        return f"status {self.status}\n-- output\n{shown(self.output)}\n-- errors\n{shown(self.errors)}"


def failed(report, output=b"", status=1):
    """The end of a run that reports a fault."""
    return Ended(status, output, f"dnsfleet: {report}\n".encode())


def run(words, given=b"", **more):
    """Runs the program with words, on a text as standard input unless another one is named."""
    if "stdin" not in more:
        more["input"] = given
    settings = {"stdout": subprocess.PIPE, "stderr": subprocess.PIPE, "timeout": LONGEST_RUN, **more}
    ran = subprocess.run([path(), *words], check=False, **settings)
    return Ended(ran.returncode, ran.stdout or b"", ran.stderr or b"")


def run_script(lines, **more):
    """Runs the lines of a script."""
    return run(["script"], lines, **more)


@contextlib.contextmanager
def started(words, seconds=LONGEST_RUN, **streams):
    """The program as it runs, with pipes for what is not named. It is ended when that takes too
    long, and behind the last use of it."""
    pipes = {name: subprocess.PIPE for name in ("stdin", "stdout", "stderr")}
    with subprocess.Popen([path(), *words], **{**pipes, **streams}) as child:
        watch = threading.Timer(seconds, child.kill)
        watch.daemon = True
        watch.start()
        try:
            yield child
        finally:
            watch.cancel()
            child.kill()


def run_octet_by_octet(lines):
    """Runs the lines of a script of which each read gives one octet: those of a pipe in packet
    mode (pipe(2))."""
    reader, writer = os.pipe2(os.O_DIRECT | os.O_CLOEXEC)
    with tempfile.TemporaryFile() as output, tempfile.TemporaryFile() as errors:
        child = subprocess.Popen([path(), "script"], stdin=reader, stdout=output, stderr=errors)
        os.close(reader)
        try:
            for octet in lines:
                os.write(writer, bytes([octet]))
        except BrokenPipeError:
            pass
        finally:
            os.close(writer)
        status = child.wait(LONGEST_RUN)
        output.seek(0)
        errors.seek(0)
        return Ended(status, output.read(), errors.read())


def run_into_file(words, most, given=b""):
    """Runs the program with a file as standard output that holds this number of octets at most:
    a write beyond them fails (setrlimit(2), RLIMIT_FSIZE). What the file holds is the output."""

    def limit():
        signal.signal(signal.SIGXFSZ, signal.SIG_IGN)
        resource.setrlimit(resource.RLIMIT_FSIZE, (most, most))

    with tempfile.TemporaryFile() as output:
        ended = run(words, given, stdout=output, preexec_fn=limit)
        output.seek(0)
        return dataclasses.replace(ended, output=output.read())


# An environment in which the C library asks the system for memory as it needs it, and not ahead.
PLAIN_MEMORY = {"MALLOC_TOP_PAD_": "0", "MALLOC_MMAP_THRESHOLD_": "1073741824"}

# The status of a run whose libraries found no memory, so that the program did not begin.
NOT_LOADED = 127


def run_with_memory(words, pages, given=b""):
    """Runs the program with this number of pages for its data (setrlimit(2), RLIMIT_DATA)."""
    room = pages * resource.getpagesize()

    def limit():
        resource.setrlimit(resource.RLIMIT_DATA, (room, room))

    return run(words, given, preexec_fn=limit, env=PLAIN_MEMORY)
