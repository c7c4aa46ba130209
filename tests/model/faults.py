"""Mistakes that can be switched on in the model, one at a time.

A random script has to see each of them: then scripts and comparison would see the same mistake in the program."""

from contextlib import contextmanager
from unittest import mock

from . import cache, frames, open_questions, replies, site
from .limits import FLUSH, IN, LONGEST_LIFE, NAME_ERROR, NS
from .names import is_under
from .site import Site, Step

RIGHT_RELEVANT = cache.is_relevant
RIGHT_WITHDRAWS = cache.withdraws
RIGHT_REPLY = Site.reply
RIGHT_RESTART = Site.restart
RIGHT_MERGE = Site.merge
RIGHT_DECODE = frames.decode
RIGHT_DUE = open_questions.due


def dominates_whatever_the_stamp(one, other):
    """What ends later makes others needless, whatever their stamps."""
    return one.key == other.key and one.preference > other.preference and one.expires >= other.expires


def dominates_by_preference_alone(one, other):
    """The preferred makes others needless, whatever ends later."""
    return one.key == other.key and one.preference > other.preference


def withdraws_what_comes_later(flush, observation):
    """A flush withdraws what is stamped after it, too."""
    return flush.kind == FLUSH and observation.kind != FLUSH and is_under(observation.name, flush.name)


def withdraws_only_what_was_before(flush, observation):
    """A flush leaves what is stamped in its own second."""
    return RIGHT_WITHDRAWS(flush, observation) and flush.stamp > observation.stamp


def purges_without_a_floor(self, now):
    """A purge drops what has ended, and forgets to which moment."""
    self.taken = {one for one in self.taken if one.expires > max(self.floor, now)}


def denies_the_name_alone(name, rtype, observation):
    """A name error does not cover the names below it."""
    if observation.kind == NAME_ERROR:
        return name == observation.name
    return RIGHT_RELEVANT(name, rtype, observation)


def prefers_the_least(observations, now, name, rtype):
    """The least preferred answers."""
    fitting = [one for one in observations
               if cache.is_relevant(name, rtype, one) and cache.is_live(observations, now, one)]
    return min(fitting, key=cache.preference, default=None)


def shows_the_whole_life(_moment, observation):
    """The TTL is shown without the age."""
    return observation.life


def loses_the_second_entry(octets):
    """The second entry of a frame is lost."""
    observations = RIGHT_DECODE(octets)
    return observations[:1] + observations[2:]


def takes_part_of_a_refused_frame(self, octets):
    """Of a frame that is refused the entries before the fault are taken in."""
    reader, kept = frames.FrameReader(octets), []
    try:
        observations = RIGHT_DECODE(octets)
        self.taken |= set(observations)
        return Step(taken=len(observations))
    except frames.FrameFault as fault:
        try:
            reader.take(2)
            version = reader.number(1)
            for _ in range(reader.number(2)):
                kept.append(frames.read_entry(reader, version))
        except frames.FrameFault:
            pass
        self.taken |= set(kept)
        return Step(refused=f"frame {fault}")


def answers_a_waiter_twice(self, upstream, octets):
    """The first who waits is sent the reply twice."""
    step = RIGHT_REPLY(self, upstream, octets)
    step.packets = step.packets[:1] + step.packets
    return step


def matches_any_upstream(entries, _upstream, identifier, question):
    """A reply is taken from an upstream that was not asked last."""
    for entry in entries:
        if (entry.identifier, entry.name, entry.rtype) == (identifier, question.name, question.rtype):
            return entry
    return None


def merges_without_the_floor(self, other):
    """A merge leaves the floor."""
    floor = self.floor
    given = RIGHT_MERGE(self, other)
    self.floor = floor
    return given


def restarts_with_its_clock(self):
    """A restart leaves the clock."""
    clock = self.clock
    RIGHT_RESTART(self)
    self.clock = clock


def reads_a_top_bit_as_large(ttl):
    """A TTL with its top bit set counts as a large one."""
    return min(ttl, LONGEST_LIFE)


def serves_the_least_identifier(entries, now):
    """The open question that is due first is that with the least identifier."""
    return sorted(RIGHT_DUE(entries, now), key=lambda entry: entry.identifier)


def denies_the_question_name(meaning):
    """A denial behind an alias denies the name of the question."""
    return meaning.name


def keeps_any_name_server(message):
    """Name servers of any owner are kept."""
    owners = dict.fromkeys(record.name for record in message.authority if (record.rtype, record.rclass) == (NS, IN))
    return tuple(replies.rrset(message.authority, owner, NS) for owner in owners)


# The name of a mistake, where it is put, and what stands there then.
FAULTS = {
    "dominance ignores the stamp": (cache, "dominates", dominates_whatever_the_stamp),
    "dominance ignores the end": (cache, "dominates", dominates_by_preference_alone),
    "a flush withdraws what comes later": (cache, "withdraws", withdraws_what_comes_later),
    "a flush leaves its own second": (cache, "withdraws", withdraws_only_what_was_before),
    "a purge forgets the floor": (Site, "purge", purges_without_a_floor),
    "a name error does not cover names below": (cache, "is_relevant", denies_the_name_alone),
    "the least preferred answers": (cache, "decider", prefers_the_least),
    "TTLs are shown without the age": (site, "shown_ttl", shows_the_whole_life),
    "a chain has nine aliases": (cache, "LINK_LIMIT", 9),
    "a frame's second entry is lost": (frames, "decode", loses_the_second_entry),
    "a refused frame is taken in part": (Site, "take_frame", takes_part_of_a_refused_frame),
    "a waiter is answered twice": (Site, "reply", answers_a_waiter_twice),
    "a reply of any upstream counts": (open_questions, "find", matches_any_upstream),
    "a merge leaves the floor": (Site, "merge", merges_without_the_floor),
    "a restart leaves the clock": (Site, "restart", restarts_with_its_clock),
    "a TTL's top bit counts": (replies, "read_ttl", reads_a_top_bit_as_large),
    "the least identifier is served first": (open_questions, "due", serves_the_least_identifier),
    "a denial is of the question's name": (replies, "denied_name", denies_the_question_name),
    "name servers of any owner are kept": (replies, "rank_two_servers", keeps_any_name_server),
    "33 wait for one question": (open_questions, "WAITER_LIMIT", 33),
    "257 questions are open": (open_questions, "QUESTION_LIMIT", 257),
    "a denial holds for a day": (replies, "LONGEST_DENIAL", LONGEST_LIFE),
}


@contextmanager
def switched_on(name):
    """The model with one mistake."""
    place, attribute, wrong = FAULTS[name]
    with mock.patch.object(place, attribute, wrong):
        yield
