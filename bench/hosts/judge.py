"""What a trial of harm.py showed: its tables, and what was not as it should be."""

import collections
import json
from statistics import median

from clients import PATIENCE
from lab import ADDRESSES, HOSTS, PORTS, ROOM

# For how many seconds a question waits at a site at most, and how far from a moment the counts are looked at.
WAITS, LOOKED = 2.3, 1.5
# How near to each other two things may be that happened at one time.
NEAR = 0.5
# What may keep an answer away from who asked a host, strongest first: a harm of a kind to that host, or to the provider.
CAUSES = {("cut", True): "its cable was cut", ("front", True): "its front was started again",
          ("kill", True): "its site was killed", ("cut", False): "the provider's cable was cut",
          ("clock", True): "its clock was moved"}
UNKNOWN = "nothing that is known"
# The keys of a site's report that are shown.
REPORTED = "questions hits relayed failed again lost faults messages-dropped frames-dropped".split()


def row(*cells):
    print("| " + " | ".join(map(str, cells)) + " |", flush=True)


def head(*cells):
    print(flush=True)
    row(*cells)
    print("|" + "---|" * len(cells))


def ahead_between(history, begin, end):
    """By how many seconds a clock was ahead at most between two moments. Set back, it stands still until it is right."""
    most = 0
    for at, (since, ahead) in enumerate(history):
        until = history[at + 1][0] if at + 1 < len(history) else float("inf")
        if since <= end and until + ahead > begin:
            most = max(most, ahead - max(0, begin - until))
    return most


def increases(rows, key):
    """By how much a count grew, also where it began at zero again."""
    counts = [it[key] for it in rows if key in it]
    return sum(max(0, after - before) if after >= before else after for before, after in zip(counts, counts[1:]))


class Judge:
    def __init__(self, trial):
        self.trial, self.harms = trial, trial.harms
        self.told_by_clients = json.loads((ROOM / "told").read_text())
        self.cases = [json.loads(line) for line in (ROOM / "cases").read_text().splitlines()]
        self.counts = {it: [json.loads(line) for line in (ROOM / f"{it}.watch").read_text().splitlines() if line[-1:] == "}"]
                       for it in trial.watched}
        self.host_at = {address: host for host, address in ADDRESSES.items()}

    def told(self):
        faults = self.tell_harms() + self.tell_clients() + self.tell_ages() + self.tell_causes()
        self.tell_counts()
        return faults

    def tell_harms(self):
        head("Harm", "Times", "Seconds it lasted: median", "Most", "Seconds until all was well: median", "Most")
        for kind in sorted({it["kind"] for it in self.harms}):
            some = [it for it in self.harms if it["kind"] == kind]
            lasted, healed = ([it[end] - it[begin] for it in some] for begin, end in (("began", "ended"), ("ended", "well")))
            row(kind, len(some), *(f"{it:.1f}" for them in (lasted, healed) for it in (median(them), max(them))))
        return [f"{it['kind']} of {it['place']}: all is not well" for it in self.harms if it["well"] == float("inf")]

    def tell_clients(self):
        told = self.told_by_clients
        seen = collections.Counter(told["seen"])
        head("Clients' second try", "Asked", "Code twice", "No answer to either try")
        for way in ("same", "other"):
            row({"same": "the same front", "other": "another front"}[way], f"{seen[f'asked {way}']:,}", seen[f"code {way}"],
                seen[f"none {way}"])
        head("Asked", "Answered at the first try", "At the second", "Wrong", "Late replies", "Codes", "ms: median", "99 %",
             "99.9 %", "Most")
        codes = ", ".join(f"{key[5:]}: {count}" for key, count in sorted(seen.items()) if key[5:].isdigit())
        row(*(f"{seen[it]:,}" for it in ("asked", "first", "second", "wrong", "late replies")), codes or "none",
            *(f"{it:.1f}" for it in told.get("ms", [0] * 4)))
        others = [key for key in seen if key[5:].isdigit() and key != "code 2"]
        wrong = [f"wrong: {it['why']}: {it['name']} at {it['tries'][-1]}" for it in self.cases if it["what"] == "wrong"]
        return wrong + [f"{seen[it]} times {it}" for it in others] + ["the clients did not end"] * (not told["over"])

    def ahead(self, made, learnt):
        """By how much a clock was ahead at most between two moments."""
        return max(ahead_between(it.history, made - NEAR, learnt + NEAR) for it in self.trial.hosts.clocks.values())

    def tell_ages(self):
        seen, most = (collections.Counter(self.told_by_clients[it]) for it in ("seen", "most"))
        old = [(past, past - self.ahead(made, learnt), made, case) for case in self.cases if case["what"] == "old"
               for past, made, learnt in case["over"]]
        over = [it for it in old if it[1] > 0]
        head("Records of the upstream", "First at a client over 0.2 s later", "Answers past their TTL", "By at most s",
             "Past what right clocks allow", "By at most s", "Past what the clocks allowed")
        row(f"{seen['records']:,}", f"{seen['records that came late']:,}", f"{seen['past its TTL']:,}",
            f"{most['past its TTL']:.2f}", f"{len(old):,}", f"{max((it[0] for it in old), default=0):.2f}", len(over))
        moved = any(it["kind"] == "clock" for it in self.harms)
        return [f"too old by {more:.2f} s: made at {made:.2f}: {json.dumps(case)}; harms {self.near(made)}"
                for _, more, made, case in over] + ["no clock was moved, as all answers show"] * (moved and not old)

    def near(self, moment):
        """The harms about a moment, by how many seconds they began and ended after it."""
        return "; ".join(f"{it['kind']} {it['place']} {it['began'] - moment:.2f} to {it['ended'] - moment:.2f}"
                         for it in self.harms if it["began"] < moment + 10 and it["well"] > moment - 10)

    def cause(self, name, sent, front):
        """Why a try had no answer. What is not cached may have waited at the site, for an upstream that was not reached."""
        host, since = self.host_at[front], sent - (0 if name.startswith("k") else WAITS)
        near = [it for it in self.harms if it["began"] < sent + PATIENCE and it["well"] > since]
        for (kind, is_own), text in CAUSES.items():
            if any(it["kind"] == kind and it["place"] == (host if is_own else "provider") for it in near):
                return text
        rows, of_clients = ([it for it in self.counts[place] if since - LOOKED < it["at"] < sent + PATIENCE + LOOKED]
                            for place in (host, "client"))
        if increases(rows, "no_policy") or any(it.get("server_status provider") == 0 for it in rows):
            return "its front held the provider to be down"
        if any(increases(some, f"dropped {port}") for some in (rows, of_clients) for port in PORTS):
            return "a socket dropped something"
        if increases(rows, "site failed"):
            return "its site had no reply of the provider in time"
        return UNKNOWN

    def tell_causes(self):
        """Why there was no answer to the first of two tries, or to either."""
        found, faults = collections.defaultdict(collections.Counter), []
        for it in self.cases:
            if it["what"] in ("second", "none", "code"):
                causes = [self.cause(it["name"], *one) for one in it["tries"][: 1 if it["what"] == "second" else 2]]
                text = "; then ".join(dict.fromkeys(causes))
                found[text][it["what"]] += 1
                found[text]["known"] += it["what"] != "second" and it["name"].startswith("k")
                if it["what"] != "second" and UNKNOWN in causes:
                    faults.append(f"no cause: {json.dumps(it)}")
        head("What was done to the host that was asked", "No answer to the first try", "To neither", "Code 2 to both",
             "Of these known names")
        for text, count in sorted(found.items(), key=lambda it: -it[1].total()):
            row(text, *(f"{count[what]:,}" for what in ("second", "none", "code", "known")))
        return faults

    def tell_counts(self):
        apart = [after["at"] - before["at"] for rows in self.counts.values() for before, after in zip(rows, rows[1:])]
        print(f"\nLooks at the counts, a second apart by what was meant, were so up to {max(apart, default=0):.1f} s.")
        head("Dropped by sockets, port", *self.trial.watched)
        ports = sorted({key for rows in self.counts.values() for it in rows[:1] for key in it if key.startswith("dropped")})
        for key in ports:
            row(key.partition(" ")[2], *(increases(self.counts[it], key) for it in self.trial.watched))
        keys = sorted({key for host in HOSTS for it in self.counts[host] for key in it
                       if key != "at" and not key.startswith(("dropped", "server_status", "site"))})
        head("Fronts' counts", *HOSTS)
        for key in keys:
            counts = [increases(self.counts[host], key) for host in HOSTS]
            if any(counts):
                row(key, *counts)
        head("Sites' reports", *HOSTS)
        for key in REPORTED:
            row(key, *(f"{increases(self.counts[host], f'site {key}'):,}" for host in HOSTS))
        print()
