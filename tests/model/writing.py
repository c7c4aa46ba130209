"""Messages, written (RFC 1035 4): every name in full."""

from dataclasses import dataclass

from .limits import IN, MESSAGE_LIMIT
from .names import name_octets
from .reached import note


@dataclass(frozen=True)
class Row:
    """A record to write."""
    name: tuple
    rtype: int
    ttl: int
    rdata: bytes


def numbers(*values):
    """Numbers of two octets each."""
    return b"".join(value.to_bytes(2, "big") for value in values)


def question_octets(question):
    """A question in its own spelling."""
    return name_octets(question.spelled) + numbers(question.rtype, question.rclass)


def row_octets(row):
    """A record of class IN."""
    return (name_octets(row.name) + numbers(row.rtype, IN) + row.ttl.to_bytes(4, "big")
            + numbers(len(row.rdata)) + row.rdata)


@dataclass(frozen=True)
class Reply:
    """A reply to write: QR and RA are set, AA and the Z bits are clear."""
    identifier: int
    recursion_desired: bool
    code: int
    question: object = None
    answer: tuple = ()
    authority: tuple = ()
    opcode: int = 0
    cut_off: bool = False

    def head(self, cut_off, counts):
        """Header and question."""
        flags = (0x8080 | self.opcode << 11 | (0x0200 if cut_off else 0)
                 | (0x0100 if self.recursion_desired else 0) | self.code)
        asked = b"" if self.question is None else question_octets(self.question)
        return numbers(self.identifier, flags, 0 if self.question is None else 1, *counts, 0) + asked

    def octets(self):
        """The octets, or header and question cut off where they would be too many (RFC 2181 9)."""
        rows = self.answer + self.authority
        whole = self.head(self.cut_off, (len(self.answer), len(self.authority)))
        whole += b"".join(row_octets(row) for row in rows)
        if len(whole) <= MESSAGE_LIMIT:
            if len(whole) == MESSAGE_LIMIT:
                note("written: a reply of just 512 octets")
            return whole
        note("written: a reply cut off for its length")
        return self.head(True, (0, 0))


def query_octets(identifier, name, rtype):
    """The query to an upstream: RD alone is set, the name is in lower case."""
    return numbers(identifier, 0x0100, 1, 0, 0, 0) + name_octets(name) + numbers(rtype, IN)
