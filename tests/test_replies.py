"""What is learnt of a reply, and what is relayed of it.

A list in `cases/replies.txt` begins with `= ` and what it shows. Each row is about one reply, at a
site that is new; a line that begins with `#` says what is in the row below it, behind `=>` of what
is wanted. `seen` is what is learnt of it at 100: each observation, `none` where there is none.
`digest` is why nothing is read of it. `relay` has a question before the reply, which is its
upstream's: what goes to the client.
"""

from support.checks import Case, add_cases, parts_of
from support.rows import observation_of, octets_in, row_of, rows_in
from support.scripts import script_of
from support.sessions import HOST


class Replies(Case):
    """Each list of replies."""

    def seen(self, script, reply):
        """What is learnt of a reply."""
        printed = script.do(f"learn 0 100 {octets_in(reply).hex()}")
        items = script.do("show 0")[1:-1]
        self.check_equal(printed, [f"taken {len(items)}"], "learn")
        return sorted(map(observation_of, items)) or ["none"]

    def digest(self, script, reply):
        """Why nothing is read of a reply."""
        printed = script.do(f"learn 0 100 {octets_in(reply).hex()}")
        return [line.removeprefix("refused digest ") for line in printed]

    def relay(self, script, query, reply):
        """What a client gets where an upstream replies so to what it asked. The query has the
        identifier of the reply."""
        identifier, port = int.from_bytes(octets_in(reply)[:2]), 6001
        script.do(f"datagram 0 100 {HOST}:{port} {identifier} {octets_in(query).hex()}")
        printed = script.do(f"datagram 0 100 {HOST}:5301 0 {octets_in(reply).hex()}")
        return [printed[0].removeprefix(f"send {HOST}:{port} ")]

    def check(self, rows):
        with script_of(1) as script:
            for row in rows:
                call, words, wanted = row_of(row)
                script.do("restart 0")
                came = getattr(self, call)(script, *words)
                self.check_equal(came, wanted_of(call, wanted), row[:200])


def wanted_of(call, wanted):
    """What a row wants, with digits for what is spelled otherwise."""
    if call == "relay":
        return [octets_in(wanted).hex()]
    if call == "digest" or wanted == "none":
        return [wanted]
    parts = [part.rpartition(" ") for part in wanted.split(";")[:-1]]
    return sorted(f"{said} {octets_in(body).hex()}" for said, _, body in parts)


add_cases(Replies, [(shows, rows_in(text)) for shows, text in parts_of("replies.txt")])
