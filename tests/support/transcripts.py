"""Scripts with what they print, put together line by line."""

from support.checks import Case
from support.messages import frame
from support.program import Ended, failed, run_script
from support.sessions import HOST


def text_of(lines):
    """Lines as octets."""
    return "".join(f"{line}\n" for line in lines).encode()


def _digits(octets):
    """Octets as a script has them."""
    return octets.hex() or "-"


def learn_line(now, message, site=0):
    """The line that hands in a reply."""
    return f"learn {site} {now} {_digits(message)}"


def ask_line(now, message, site=0):
    """The line that asks a question."""
    return f"ask {site} {now} {_digits(message)}"


def frame_line(now, octets, site=0):
    """The line that hands in the octets of a frame."""
    return f"frame {site} {now} {_digits(octets)}"


def entries_line(now, *entries, site=0, version=2):
    """The line that hands in a frame of entries."""
    return frame_line(now, frame(entries, version), site)


def datagram_line(now, port, octets, word=0, site=0, host=HOST):
    """The line with a datagram from an address, and a word for the search of an identifier."""
    return f"datagram {site} {now} {host}:{port} {word} {_digits(octets)}"


def sent(port, octets, host=HOST):
    """What a line prints that sends a datagram."""
    return f"send {host}:{port} {_digits(octets)}"


def answered(octets):
    """What a line prints that answers a question."""
    return f"reply {_digits(octets)}"


def kept(number, *entries):
    """What a line prints that keeps a frame of entries."""
    return f"frame {number} {frame(entries).hex()}"


def held(kind, rank, stamp, life, name, rtype, body):
    """What a line prints that shows an item."""
    return f"{kind} {rank} {stamp} {life} {name} {rtype} {_digits(body)}"


class ScriptCase(Case):
    """A test case of scripts whose lines are steps: each has a line, and what it prints."""

    def check_steps(self, *steps, report=None):
        """Steps print what they say. `report` says what is wrong with the line of the last one."""
        script = text_of(line for line, *_ in steps)
        output = text_of(line for _, *printed in steps for line in printed)
        wanted = failed(f"line {len(steps)}: {report}", output) if report else Ended(0, output)
        self.check_equal(run_script(script), wanted)
