"""Standard output of a site: writes that fail, at either of its two lines."""

import tempfile

from support.checks import Case, add_cases
from support.program import failed, run_into_file
from support.sessions import KEY, TRIES, TURNS, configuration, free_ports
from test_configurations import NO_PORT


def serve_into_file(lines, turns):
    """Serves with room for so many lines of output, and gives the first line that is wanted and
    how it ended. Where another program took the port, another one is asked for."""
    for _ in range(TRIES):
        [port] = free_ports(1)
        first = f"listening 127.0.0.1:{port}\n".encode()
        with tempfile.NamedTemporaryFile() as file:
            file.write(configuration(port, [5301]).encode())
            file.flush()
            words = ["serve", "--config", file.name, "--key", KEY, "--turns", str(turns)]
            ended = run_into_file(words, len(first) * lines)
        if ended != NO_PORT:
            break
    return first, ended


class UnprintedLines(Case):
    """Lines that can't be printed."""

    def check(self, lines, turns):
        first, ended = serve_into_file(lines, turns)
        self.check_equal(ended, failed("write", first * lines))


add_cases(
    UnprintedLines,
    [
        # It serves none of its turns, which would last ten minutes.
        ("where it listens can't be printed", 0, TURNS),
        ("what it counted can't be printed", 1, 1),
    ],
)
