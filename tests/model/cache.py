"""What a plain set of observations holds, and what it answers."""

from .limits import CNAME, FLUSH, KIND_WORDS, LINK_LIMIT, NAME_ERROR, NO_DATA, POSITIVE
from .names import is_under, name_octets, plain_labels
from .reached import note


def withdraws(flush, observation):
    """Whether a flush withdraws an observation: one of another kind at or below its name, stamped not after it."""
    return (flush.kind == FLUSH and observation.kind != FLUSH and is_under(observation.name, flush.name)
            and flush.stamp >= observation.stamp)


def is_void(observations, observation):
    """Whether a flush of the set withdraws an observation."""
    return any(withdraws(flush, observation) for flush in observations if flush.kind == FLUSH)


def is_live(observations, now, observation):
    """Whether an observation has not ended and is not withdrawn. One that is stamped later is live."""
    return now < observation.expires and not is_void(observations, observation)


def is_relevant(name, rtype, observation):
    """Whether an observation bears on a question: records of the type or an alias at the name, a denial of the type at
    the name (RFC 2308 5), a name error at the name or above it (RFC 8020 2)."""
    if observation.kind == POSITIVE:
        return observation.name == name and observation.rtype in (rtype, CNAME)
    if observation.kind == NO_DATA:
        return observation.name == name and observation.rtype == rtype
    return observation.kind == NAME_ERROR and is_under(name, observation.name)


def decider(observations, now, name, rtype):
    """The most preferred observation that is live and relevant, or None."""
    fitting = [one for one in observations if is_relevant(name, rtype, one) and is_live(observations, now, one)]
    if len({one.kind for one in fitting}) > 1:
        note("answer: several kinds fit")
    elif len(fitting) > 1:
        note("answer: several observations fit")
    return max(fitting, key=preference, default=None)


def preference(observation):
    """The place of an observation among all."""
    return observation.preference


def answer(observations, now, name, rtype):
    """The aliases of the way and the observation that ends it, or None of a miss.

    A miss at an alias's target is a miss, and so is a ninth alias."""
    chain = []
    while True:
        best = decider(observations, now, name, rtype)
        if best is None:
            note("answer: miss behind an alias" if chain else "answer: miss")
            return None
        if best.kind != POSITIVE or best.rtype != CNAME or rtype == CNAME:
            note(f"answer: {KIND_WORDS[best.kind]}, chain of {len(chain)}")
            return chain, best
        if len(chain) == LINK_LIMIT:
            note("answer: a ninth link")
            return None
        chain.append(best)
        name = plain_labels(best.content[0])


def dominates(one, other):
    """Whether one observation makes another needless: of the same key, preferred, and neither ended nor withdrawn
    before it."""
    return (one.key == other.key and one.preference > other.preference and one.expires >= other.expires
            and one.stamp >= other.stamp)


def cached(observations, floor):
    """What a cache of the set holds, purged to a moment: what has not ended, is not dominated, and is not withdrawn."""
    flushes, of_key, held = [one for one in observations if one.kind == FLUSH], {}, []
    for one in observations:
        of_key.setdefault(one.key, []).append(one)
    for one in observations:
        if one.expires <= floor:
            note("cache: ended")
        elif any(dominates(other, one) for other in of_key[one.key]):
            note("cache: dominated")
        elif is_void(flushes, one):
            note("cache: withdrawn")
        else:
            note("cache: held")
            held.append(one)
    return held


def items(observations, floor):
    """The same in order: by name, kind and type, the preferred first."""
    preferred_first = sorted(cached(observations, floor), key=preference, reverse=True)
    return sorted(preferred_first, key=lambda one: (name_octets(one.name), one.kind, one.rtype))
