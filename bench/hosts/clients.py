#!/usr/bin/env python3
"""clients.py SEED SECONDS RATE FOLDER FRONT..: asks fronts, each question twice at most. See README.md.

It writes to FOLDER `told` (counts, by and by) and `cases` (a line for what is out of the ordinary), both in JSON.
"""

import array
import collections
import json
import os
import random
import select
import socket
import sys
import time
from types import SimpleNamespace

sys.dont_write_bytecode = True

import records
from records import ADDRESS, ALIAS, DAY, KNOWN, NO_DATA, NO_NAME

# Whence they ask: a front takes so many questions a second of one address.
CLIENTS = [f"10.77.0.{number}" for number in range(50, 58)]
# Of a hundred questions so many are of each kind, and of how many names, of which each is asked for again and again.
KINDS = {KNOWN: (10, 100), ADDRESS: (45, 160), ALIAS: (15, 60), NO_NAME: (8, 40), NO_DATA: (7, 40), b"new": (15, 10**9)}
LIVES = (3, 5, 8, 13, 20, 30, 60, 120)
# The seconds for which a client waits for each of its two tries, and those between two notes of what was seen.
PATIENCE, NOTED = 2, 5
# By how much more than its TTL an answer may be shown to live by right clocks: a turn reads its clock before it waits, and
# a TTL is in whole seconds.
SLACK = 1.2
# A record that no client had so many seconds after it was made came late.
LATE = 0.2


def chosen(words):
    """A name to ask for."""
    kind = words.choices(list(KINDS), [share for share, _ in KINDS.values()])[0]
    number = words.randrange(KINDS[kind][1])
    if kind == KNOWN:
        return records.name_of(kind, number, DAY)
    return records.name_of(ADDRESS if kind == b"new" else kind, number, LIVES[number % len(LIVES)])


class Clients:
    """Clients with addresses of their own. Half of their questions go to the same front twice, half to another one."""

    def __init__(self, seed, rate, folder, fronts):
        self.words, self.rate, self.folder, self.fronts = random.Random(seed), rate, folder, fronts
        self.sockets = [socket.socket(socket.AF_INET, socket.SOCK_DGRAM | socket.SOCK_NONBLOCK) for _ in CLIENTS]
        self.poll = select.poll()
        for one, address in zip(self.sockets, CLIENTS):
            one.bind((address, 0))
            one.setsockopt(socket.SOL_SOCKET, socket.SO_RCVBUF, 1 << 20)
            self.poll.register(one, select.POLLIN)
        self.at = {one.fileno(): one for one in self.sockets}
        self.open, self.waiting, self.learnt = {}, collections.deque(), {}
        # What each number stood for before it was given to another question.
        self.earlier = {}
        self.seen, self.waits = collections.Counter(), array.array("d")
        self.most = {"past its TTL": 0.0, "shown past its TTL": 0.0}
        self.cases = open(os.path.join(folder, "cases"), "w", encoding="ascii")

    def ask(self):
        """Asks something, the first of two tries."""
        first, other = self.words.sample(self.fronts, 2)
        way = self.words.choice(("same", "other"))
        asked = SimpleNamespace(name=chosen(self.words), way=way, fronts=(first, first if way == "same" else other),
                                tries=[], codes=[None, None], keys=[], is_done=False)
        self.seen["asked"] += 1
        self.seen["asked " + way] += 1
        self.send(asked)

    def send(self, asked):
        one = self.words.choice(self.sockets)
        key = one.fileno(), self.words.randrange(65536)
        while key in self.open:
            key = one.fileno(), self.words.randrange(65536)
        octets, front = records.question(key[1], asked.name), asked.fronts[len(asked.tries)]
        now = time.time()
        self.open[key] = asked, len(asked.tries), octets, now
        asked.tries.append((now, front))
        asked.keys.append(key)
        try:
            one.sendto(octets, (front, 53))
        except OSError as fault:
            self.seen[f"not sent: {fault.strerror}"] += 1
        self.waiting.append((time.monotonic() + PATIENCE, asked))

    def note(self, what, asked, **more):
        name = b".".join(records.labels_of(asked.name)).decode()
        line = {"what": what, "name": name, "way": asked.way, "tries": asked.tries, "codes": asked.codes, **more}
        self.cases.write(json.dumps(line) + "\n")

    def forget(self, asked):
        asked.is_done = True
        for key in asked.keys:
            self.earlier[key] = self.open.pop(key)[2][12:]

    def take(self, one):
        """Takes a reply, and judges it."""
        reply, sender = one.recvfrom(4096)
        now = time.time()
        key = one.fileno(), int.from_bytes(reply[:2], "big")
        found = self.open.get(key)
        if found is None or sender != (found[0].fronts[found[1]], 53):
            self.seen["late replies"] += 1
            return
        asked, place, octets, sent = found
        if reply[12 : len(octets)].lower() != octets[12:] and reply[12:].startswith(self.earlier.get(key, b"none")):
            self.seen["late replies"] += 1
            return
        try:
            code, said = records.read_reply(reply, octets)
        except (records.Wrong, ValueError, IndexError) as fault:
            self.seen["wrong"] += 1
            self.note("wrong", asked, why=str(fault), reply=reply.hex())
            return self.forget(asked)
        if code not in (0, 3):
            asked.codes[place] = code
            self.seen[f"code {code}"] += 1
            return None
        self.forget(asked)
        self.waits.append(now - sent)
        self.seen["second" if place else "first"] += 1
        if place:
            self.note("second", asked)
        return self.judge(asked, sent, now, said)

    def judge(self, asked, sent, now, said):
        """Looks how old an answer was when it was asked for, and until when it is said to live. A site had learnt a record
        at the latest when a client first had it."""
        life, over = records.life_of(asked.name), []
        for made, left in said:
            learnt = self.learnt.setdefault((asked.name, made), now)
            if learnt == now:
                self.seen["records"] += 1
                self.seen["records that came late"] += now - made > LATE
            past, shown = sent - learnt - life, sent + left - learnt - life
            self.seen["past its TTL"] += past > 0
            self.most["past its TTL"] = max(self.most["past its TTL"], past)
            self.most["shown past its TTL"] = max(self.most["shown past its TTL"], shown)
            if max(past + 1, shown) > SLACK:
                over.append((max(past + 1, shown) - SLACK, made, learnt))
        if over:
            self.seen["more than right clocks allow"] += 1
            self.note("old", asked, sent=sent, over=over)

    def look_at_the_late(self):
        """Asks once more, or gives up."""
        now = time.monotonic()
        while self.waiting and self.waiting[0][0] <= now:
            _, asked = self.waiting.popleft()
            if asked.is_done:
                continue
            if len(asked.tries) == 1:
                self.send(asked)
                continue
            what = "none" if asked.codes == [None, None] else "code"
            self.seen[f"{what} {asked.way}"] += 1
            self.note(what, asked)
            self.forget(asked)

    def tell(self, is_over):
        waits = sorted(self.waits) if is_over else self.waits
        told = {"seen": self.seen, "most": self.most, "over": is_over}
        if is_over and waits:
            told["ms"] = [1000 * waits[int(len(waits) * part)] for part in (0.5, 0.99, 0.999)] + [1000 * waits[-1]]
        path = os.path.join(self.folder, "told")
        with open(path + ".new", "w", encoding="ascii") as file:
            json.dump(told, file)
        os.replace(path + ".new", path)
        self.cases.flush()

    def run(self, seconds):
        due = noted = time.monotonic()
        end = due + seconds
        while self.waiting or due < end:
            now = time.monotonic()
            if due < end and due <= now:
                self.ask()
                due = max(due, now - 0.1) + self.words.expovariate(self.rate)
            if noted <= now:
                self.tell(False)
                noted = now + NOTED
            self.look_at_the_late()
            ready = self.poll.poll(max(0, min(20, 1000 * (due - now) if due < end else 20)))
            for place, _ in ready:
                self.take(self.at[place])
        self.tell(True)


if __name__ == "__main__":
    Clients(int(sys.argv[1]), float(sys.argv[3]), sys.argv[4], sys.argv[5:]).run(float(sys.argv[2]))
