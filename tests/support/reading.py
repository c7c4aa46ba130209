"""Replies as they are read: their records, whose names are in full."""

import dataclasses
import struct


@dataclasses.dataclass(frozen=True)
class Record:
    """A record of a reply."""

    name: str
    rtype: int
    ttl: int
    rdata: bytes


def _name_at(message, at):
    """The text of a name in full, and where it ends."""
    labels = []
    while message[at]:
        end = at + 1 + message[at]
        labels.append(message[at + 1 : end].decode())
        at = end
    return "".join(f"{label}." for label in labels) or ".", at + 1


def _record_at(message, at):
    """A record, and where it ends."""
    name, at = _name_at(message, at)
    rtype, _, ttl, length = struct.unpack("!2HIH", message[at : at + 10])
    end = at + 10 + length
    return Record(name, rtype, ttl, message[at + 10 : end]), end


def sections_of(message):
    """The records of the answer and those of the authority of a reply to one question."""
    _, _, _, answers, authorities, _ = struct.unpack("!6H", message[:12])
    _, at = _name_at(message, 12)
    at, records = at + 4, []
    for _ in range(answers + authorities):
        made, at = _record_at(message, at)
        records.append(made)
    return records[:answers], records[answers:]
