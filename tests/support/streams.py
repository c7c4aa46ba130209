"""Streams that fail or are interrupted, as standard input of a script."""

import os
import signal
import socket
import struct
import time
from pathlib import Path

from support.program import LONGEST_RUN, Ended, run_script, started

# How often a read is interrupted.
INTERRUPTIONS = 3

# How long a test waits for what it expects, in seconds.
PATIENCE = 30


def wait_until(is_so, what):
    """Waits until something is so."""
    deadline = time.monotonic() + PATIENCE
    while not is_so():
        if time.monotonic() > deadline:
            raise AssertionError(f"not within {PATIENCE} seconds: {what}")
        time.sleep(0.002)


def wait_until_asleep(child):
    """Waits until a process waits for something itself."""

    def is_asleep():
        stat = Path(f"/proc/{child.pid}/stat").read_text(encoding="utf-8")
        return stat.rsplit(")", 1)[1].split()[0] == "S"

    wait_until(is_asleep, "the program waits")


def stop(child):
    """Has a process stand still."""
    child.send_signal(signal.SIGSTOP)
    os.waitid(os.P_PID, child.pid, os.WSTOPPED | os.WNOWAIT)


def go_on(child):
    """Has a process that stands still go on."""
    child.send_signal(signal.SIGCONT)


def with_time_out(seconds, microseconds=0):
    """Two ends of a stream, of which a read of the first one fails when nothing comes for this
    time."""
    reader, writer = socket.socketpair()
    reader.setsockopt(socket.SOL_SOCKET, socket.SO_RCVTIMEO, struct.pack("@ll", seconds, microseconds))
    writer.settimeout(LONGEST_RUN)
    return reader, writer


def interrupt_read(child):
    """Interrupts the read in which a script waits, some times: a read of a socket with a
    time-out is interrupted when the process that stood still goes on (signal(7))."""
    for _ in range(INTERRUPTIONS):
        wait_until_asleep(child)
        stop(child)
        go_on(child)


def run_interrupted(pieces, check_printed=None):
    """Runs a script in pieces, before each of which a read is interrupted. Behind each piece
    `check_printed` looks at what the program prints."""
    reader, writer = with_time_out(LONGEST_RUN)
    with reader, writer, started(["script"], stdin=reader) as child:
        for piece in pieces:
            interrupt_read(child)
            writer.sendall(piece)
            if check_printed:
                check_printed(piece, child.stdout)
        writer.shutdown(socket.SHUT_RDWR)
        output, errors = child.communicate(timeout=LONGEST_RUN)
        return Ended(child.returncode, output, errors)


def run_before_a_fault(octets):
    """Runs a script from a stream that has these octets, and fails behind them: its other end was
    closed with an octet that was not read (ECONNRESET of unix(7))."""
    reader, writer = socket.socketpair()
    with reader:
        reader.sendall(b"x")
        writer.sendall(octets)
        writer.close()
        return run_script(b"", stdin=reader)
