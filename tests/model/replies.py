"""What a reply says: RRsets, the walk along aliases, the end, the observations, the relay."""

from dataclasses import dataclass

from .limits import (BODY_LIMIT, CNAME, IN, KIND_WORDS, LINK_LIMIT, LONGEST_DENIAL, LONGEST_LIFE, NAME_ERROR, NO_DATA,
                     NO_ERROR, NO_SUCH_NAME, NS, POSITIVE, SOA, is_data_type)
from .names import is_under, plain_labels
from .observations import Observation
from .reached import note
from .reading import number
from .writing import Reply, Row


class DigestFault(Exception):
    """Why a reply that can be read has no meaning."""


@dataclass(frozen=True)
class RrSet:
    """The records of one name and type (RFC 2181 5): the RDATAs ascend, each stands once."""
    name: tuple
    rtype: int
    ttl: int
    rdatas: tuple


@dataclass(frozen=True)
class Digest:
    """The meaning of a reply.

    The end is "Records" with an RRset, "NoData" or "NxDomain" with owner, TTL and RDATA of the SOA or None, "Code" with
    the code, or "Truncated"."""
    name: tuple
    rtype: int
    authoritative: bool
    chain: tuple
    end: str
    value: object
    name_servers: tuple


def read_ttl(ttl):
    """A TTL as it counts: zero where its top bit is set (RFC 2181 8), and at most a day."""
    return 0 if ttl >> 31 else min(ttl, LONGEST_LIFE)


def rrset(section, name, rtype):
    """The RRset of a name and type in a section, or None. Its TTL is the least one (RFC 2181 5.2)."""
    records = [record for record in section
               if record.rclass == IN and is_data_type(rtype) and (record.name, record.rtype) == (name, rtype)]
    if not records:
        return None
    rdatas = {record.rdata for record in records}
    if len(rdatas) < len(records):
        note("reply: equal records count once")
    return RrSet(name, rtype, min(read_ttl(record.ttl) for record in records), tuple(sorted(rdatas)))


def walk(answer, name, rtype):
    """The names from the question's along the aliases to the end (RFC 1034 3.6.2).

    There is no walk at a name with two aliases, and none with more links than the limit."""
    names = [name]
    while True:
        records, alias = rrset(answer, names[-1], rtype), rrset(answer, names[-1], CNAME)
        if alias is not None and len(alias.rdatas) > 1 and (records is None or rtype == CNAME):
            note("reply: two aliases at one name")
            raise DigestFault("BadChain")
        if records is not None or alias is None:
            return names
        if len(names) > LINK_LIMIT:
            note("reply: a ninth link")
            raise DigestFault("BadChain")
        names.append(plain_labels(alias.rdatas[0]))


def denying_soa(authority, denied):
    """Owner, TTL and RDATA of the SOA that counts for a denial (RFC 2308 5), or None. The first one of class IN counts,
    where its owner is the denied name or an ancestor."""
    for record in authority:
        if (record.rtype, record.rclass) == (SOA, IN):
            if not is_under(denied, record.name):
                note("reply: the SOA of another zone")
                return None
            minimum = number(record.rdata, len(record.rdata) - 4, 4)
            return record.name, min(read_ttl(record.ttl), read_ttl(minimum), LONGEST_DENIAL), record.rdata
    return None


def rank_two_servers(message):
    """The NS RRsets of the authority section that are kept (RFC 2181 5.4.1), in order of first appearance."""
    name, owners = message.question.name, []
    for record in message.authority:
        if (record.rtype, record.rclass) == (NS, IN) and is_under(name, record.name) and record.name not in owners:
            owners.append(record.name)
    return tuple(rrset(message.authority, owner, NS) for owner in owners)


def digest(message):
    """The meaning of a reply."""
    header, question = message.header, message.question
    if not header.response or header.opcode != 0 or question.rclass != IN or not is_data_type(question.rtype):
        raise DigestFault("NotReply")

    def meaning(chain, end, value, name_servers=()):
        note(f"reply: {end}, {len(chain)} links" if chain else f"reply: {end}")
        return Digest(question.name, question.rtype, header.authoritative, chain, end, value, name_servers)

    if header.cut_off:
        return meaning((), "Truncated", None)
    if header.code not in (NO_ERROR, NO_SUCH_NAME):
        return meaning((), "Code", header.code)
    names = walk(message.answer, question.name, question.rtype)
    chain = tuple(rrset(message.answer, name, CNAME) for name in names[:-1])
    servers = rank_two_servers(message) if header.authoritative and header.code == NO_ERROR else ()
    records = rrset(message.answer, names[-1], question.rtype)
    if records is not None:
        return meaning(chain, "Records", records, servers)
    end = "NoData" if header.code == NO_ERROR else "NxDomain"
    return meaning(chain, end, denying_soa(message.authority, names[-1]), servers)


def denied_name(meaning):
    """The name where the walk ended: the question's, or the last alias's target (RFC 2308 2.1)."""
    return plain_labels(meaning.chain[-1].rdatas[0]) if meaning.chain else meaning.name


def denial(meaning, stamp):
    """The observation of a denial, as a list of one, or of none where no SOA counts or its TTL is zero."""
    if meaning.value is None or meaning.value[1] == 0:
        note("reply: a denial that is not kept")
        return []
    owner, ttl, rdata = meaning.value
    rank = 3 if meaning.authoritative and not meaning.chain else 1
    kind, rtype = (NO_DATA, meaning.rtype) if meaning.end == "NoData" else (NAME_ERROR, 0)
    return [Observation(kind, denied_name(meaning), rtype, rank, stamp, ttl, (owner, rdata))]


def observations_of(meaning, stamp):
    """What is kept of a reply, in order: the links, the records or the denial, the name servers."""
    own_rank = 3 if meaning.authoritative else 1
    ranked = [(link, own_rank if link.name == meaning.name else 1) for link in meaning.chain]
    if meaning.end == "Records":
        ranked.append((meaning.value, own_rank if meaning.value.name == meaning.name else 1))
    kept = [positive(records, rank, stamp) for records, rank in ranked]
    if meaning.end in ("NoData", "NxDomain"):
        kept += denial(meaning, stamp)
    kept += [positive(servers, 2, stamp) for servers in meaning.name_servers]
    kept = [one for one in kept if one.life > 0 and len(one.body) <= BODY_LIMIT]
    for one in kept:
        note(f"observed: {KIND_WORDS[one.kind]} of rank {one.rank}")
    return kept


def positive(records, rank, stamp):
    """The observation of an RRset."""
    return Observation(POSITIVE, records.name, records.rtype, rank, stamp, records.ttl, records.rdatas)


def rows_of(records):
    """The records of an RRset, to write."""
    return tuple(Row(records.name, records.rtype, records.ttl, rdata) for rdata in records.rdatas)


def relay(meaning, question, identifier):
    """What a client that waited is sent. The TTLs are those of the reply, a zero too."""
    if meaning.end == "Code":
        return Reply(identifier, True, meaning.value, question).octets()
    if meaning.end == "Truncated":
        return Reply(identifier, True, NO_ERROR, question, cut_off=True).octets()
    answer = tuple(row for link in meaning.chain for row in rows_of(link))
    authority = ()
    if meaning.end == "Records":
        answer += rows_of(meaning.value)
    elif meaning.value is not None:
        owner, ttl, rdata = meaning.value
        authority = (Row(owner, SOA, ttl, rdata),)
    code = NO_SUCH_NAME if meaning.end == "NxDomain" else NO_ERROR
    return Reply(identifier, True, code, question, answer, authority).octets()
