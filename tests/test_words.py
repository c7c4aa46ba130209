"""The words of the program, its help, its version and its key.

`cases/words_not_taken.txt` has a line with each of these words that the program does not take.
"""

from support.checks import Case, add_cases, lines_of
from support.program import Ended, failed, run, run_into_file
from support.sessions import KEY

ROWS = 13
VERSION = b"dnsfleet 1.1.0 (frames: writes 2, reads 1 and 2)\n"
NO_KEY = failed("key: 64 hexadecimal digits wanted", status=2)
NO_CONFIGURATION = failed("config: not readable")


class NotTaken(Case):
    """Words that are not taken: the program looks at them before the key and the configuration."""

    def check(self, words):
        ended = run(words)
        self.check_equal((ended.status, ended.output), (2, b""))
        self.check_true(ended.errors.startswith(b"error: "), "a report that begins with 'error: '", ended)

    def test_count(self):
        """there are as many rows as are said"""
        self.check_equal(len(lines_of("words_not_taken.txt")), ROWS)


add_cases(
    NotTaken,
    [(row, row.split(" ")[1:]) for row in lines_of("words_not_taken.txt")]
    + [
        ("the command script has no version of its own", ["script", "--version"]),
        ("the command serve has no version of its own", ["serve", "--version"]),
        ("a word that is none of UTF-8", [b"\xff"]),
    ],
)


class Pages(Case):
    """Help and version are printed on standard output."""

    def check(self, words, part):
        ended = run(words)
        self.check_equal((ended.status, ended.errors), (0, b""))
        self.check_true(part in ended.output, part, ended)

    def check_unprinted(self, word):
        """A page that can't be printed is reported."""
        self.check_equal(run_into_file([word], 0), failed("write"))

    def test_unprinted_help(self):
        """help that can't be printed"""
        self.check_unprinted("--help")

    def test_unprinted_version(self):
        """a version that can't be printed"""
        self.check_unprinted("--version")

    def test_version(self):
        """the version"""
        self.check_equal(run(["--version"]), Ended(0, VERSION))

    def test_short_version(self):
        """the version by a short word"""
        self.check_equal(run(["-V"]), Ended(0, VERSION))


add_cases(
    Pages,
    [
        ("help", ["--help"], b"dnsfleet script < examples/fleet.script"),
        ("help of the version", ["--help"], b"  -V, --version  Print version\n"),
        ("help of the command script", ["script", "--help"], b"  learn 0 100 0001"),
        ("help of the command serve", ["serve", "--help"], b'  listen = "127.0.0.1:5400"'),
        ("help of the command check", ["check", "--help"], b"  two sites at one address  "),
        ("help of the command withdraw", ["withdraw", "--help"], b"  dnsfleet withdraw --from 127.0.0.1:5499 --to "),
        ("help by a word", ["help", "serve"], b'  listen = "127.0.0.1:5400"'),
    ],
)


class Keys(Case):
    """The words are taken, and then the program looks at the key before the configuration, which
    can't be read."""

    def check(self, key, wanted, turns="1", config="/"):
        words = ["serve", "--config", config, "--key", key, "--turns", turns]
        self.check_equal(run(words), wanted)

    def test_other_order(self):
        """the words in another order"""
        words = ["serve", "--turns", "4294967295", "--key", KEY, "--config", ""]
        self.check_equal(run(words), NO_CONFIGURATION)


add_cases(
    Keys,
    [(f"a key of {count} digits", "0" * count, NO_KEY) for count in (0, 2, 62, 63, 65, 66)]
    + [
        ("a key with a letter that is no digit", "g" + "0" * 63, NO_KEY),
        ("a key that is a word", "k", NO_KEY, "1", "c"),
        ("no key and no configuration, and the most turns", "", NO_KEY, "4294967295", ""),
        ("a key, and no configuration", KEY, NO_CONFIGURATION),
        ("a key, the most turns, and no configuration", KEY, NO_CONFIGURATION, "4294967295", ""),
    ],
)
