"""Replies that are forged by one who does not know the identifier of the query."""

from support.checks import Case
from support.messages import event_octets
from support.scripts import script_of

IDENTIFIER = 0x1234


class Forged(Case):
    """Forged replies change nothing, and then the right one is relayed."""

    def check_line(self, script, line, *printed):
        """A line prints these lines."""
        self.check_equal(script.do(line), list(printed), line)

    def test_each_identifier(self):
        """a reply under each other identifier is for no question; then the right one is relayed"""
        asked, reply = event_octets("question").hex(), event_octets("reply").hex()
        upstream = "datagram 0 101 127.0.0.1:5301 0"
        with script_of(1) as script:
            line = f"datagram 0 100 127.0.0.1:6001 {IDENTIFIER} {asked}"
            self.check_line(script, line, f"send 127.0.0.1:5301 {event_octets('query').hex()}", "taken 0")
            for identifier in range(1 << 16):
                if identifier != IDENTIFIER:
                    self.check_line(script, f"{upstream} {identifier:04x}{reply[4:]}", "refused unmatched")
            self.check_line(script, f"{upstream} {event_octets('other-type').hex()}", "refused unmatched")
            relay, frame = event_octets("relay").hex(), event_octets("frame-101").hex()
            printed = [f"send 127.0.0.1:6001 {relay}", f"frame 0 {frame}", "taken 1"]
            self.check_line(script, f"{upstream} {reply}", *printed)
            self.check_line(script, "sweep 0", f"frame 1 {frame}", "swept 1")
