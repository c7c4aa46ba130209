"""Questions that wait for an upstream, and who waits for them."""

from dataclasses import dataclass, field

from .limits import IN, QUESTION_LIMIT, TRY_SECONDS, WAITER_LIMIT
from .reached import note


@dataclass(frozen=True)
class Waiter:
    """Who waits: its address, its identifier, its question in its own spelling."""
    address: str
    identifier: int
    question: object


@dataclass
class OpenQuestion:
    """A question that was sent to an upstream: which one by its place, until when, for whom in order of joining."""
    name: tuple
    rtype: int
    identifier: int
    upstream: int
    deadline: int
    waiters: list = field(default_factory=list)


def waits_already(entry, waiter):
    """Whether one of this address and identifier waits for the question."""
    return any((one.address, one.identifier) == (waiter.address, waiter.identifier) for one in entry.waiters)


def free_identifier(entries, word):
    """The first identifier from a word upwards that no open question has. Behind the greatest comes zero."""
    used = {entry.identifier for entry in entries}
    while word in used:
        note("question: an identifier is in use")
        word = (word + 1) % 65536
    return word


def ask(entries, waiter, now, word):
    """Enters who waits. The result is "again", "joined" or "full", or the open question that is new."""
    question = waiter.question
    for entry in entries:
        if (entry.name, entry.rtype) == (question.name, question.rtype):
            if waits_already(entry, waiter):
                return "again"
            if len(entry.waiters) == WAITER_LIMIT:
                note("question: a waiter too many")
                return "full"
            entry.waiters.append(waiter)
            return "joined"
    if len(entries) == QUESTION_LIMIT:
        note("question: an open question too many")
        return "full"
    identifier = free_identifier(entries, word)
    entry = OpenQuestion(question.name, question.rtype, identifier, 0, now + TRY_SECONDS, [waiter])
    entries.append(entry)
    return entry


def find(entries, upstream, identifier, question):
    """The open question that a reply is for, or None: of the upstream that was asked last, the identifier, the name,
    the type and class IN (RFC 5452 9.1)."""
    for entry in entries:
        if ((entry.upstream, entry.identifier, entry.name, entry.rtype, IN)
                == (upstream, identifier, question.name, question.rtype, question.rclass)):
            return entry
    return None


def due(entries, now):
    """The open questions whose time is over, by deadline and identifier."""
    over = [entry for entry in entries if entry.deadline <= now]
    return sorted(over, key=lambda entry: (entry.deadline, entry.identifier))
