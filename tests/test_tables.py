"""The tables that definitions have, against their sources. `test_reasons.py` compares the texts of
errors."""

import hashlib
import math
import re

from harness import GNU_TOOLS, Case, gnu, text_of

COMPRESSION = text_of("crates", "blake2b_core", "specs", "Compression.antt")
OPTIONS = text_of("crates", "sum_words", "specs", "parsing", "Options.antt")
WORD = 2**64 - 1
# The places that G mixes in a round (RFC 7693, 3.2): the columns, and then the diagonals.
COLUMNS = [(0, 4, 8, 12), (1, 5, 9, 13), (2, 6, 10, 14), (3, 7, 11, 15)]
DIAGONALS = [(0, 5, 10, 15), (1, 6, 11, 12), (2, 7, 8, 13), (3, 4, 9, 14)]


def table(name):
    """Returns the text of a definition of the compression function."""
    return re.search(rf"(?s)\n{name} =(.*?\[\])\n(?:\n|\Z)", COMPRESSION)[1]


SIGMA = [[*map(int, re.findall(r"\d+", row))] for row in re.findall(r"\((.*?)\)", table("sigma"))]
IV = [int(word, 16) for word in re.findall(r"0x[0-9a-f]+", table("iv"))]


def rotated(word, bits):
    """Returns a word of 64 bits, rotated to the right."""
    return (word >> bits | word << 64 - bits) & WORD


def mix(v, a, b, c, d, x, y):
    """Mixes two words into a vector (RFC 7693, 3.1)."""
    for word, first, second in ((x, 32, 24), (y, 16, 63)):
        v[a] = (v[a] + v[b] + word) & WORD
        v[d] = rotated(v[d] ^ v[a], first)
        v[c] = (v[c] + v[d]) & WORD
        v[b] = rotated(v[b] ^ v[c], second)


def compressed(h, block, counter, last):
    """Returns a hash after one more block (RFC 7693, 3.2), by the two tables."""
    words = [int.from_bytes(block[i : i + 8], "little") for i in range(0, 128, 8)]
    v = [*h, *IV]
    v[12] ^= counter & WORD
    v[13] ^= counter >> 64
    v[14] ^= WORD if last else 0
    for number in range(12):
        order = SIGMA[number % 10]
        for i, places in enumerate(COLUMNS + DIAGONALS):
            mix(v, *places, words[order[2 * i]], words[order[2 * i + 1]])
    return [h[i] ^ v[i] ^ v[i + 8] for i in range(8)]


def blake2b(size, message):
    """Returns the digest of a message without a key (RFC 7693, 3.3), by the two tables."""
    h, before_last = [*IV], max(len(message) - 1, 0) // 128
    h[0] ^= 0x01010000 ^ size
    for i in range(before_last + 1):
        block = message[128 * i : 128 * i + 128].ljust(128, b"\0")
        last = i == before_last
        h = compressed(h, block, len(message) if last else 128 * (i + 1), last)
    return b"".join(word.to_bytes(8, "little") for word in h)[:size]


class Tables(Case):
    of_the_repository = True

    def test_iv(self):
        """The words of IV are the first 64 bits of the fractions of square roots (RFC 7693, 2.6):
        of the first eight primes."""
        roots = [math.isqrt(prime << 128) & WORD for prime in (2, 3, 5, 7, 11, 13, 17, 19)]
        self.assertEqual(IV, roots)

    def test_sigma(self):
        """By RFC 7693's own definition, both tables give the digests that hashlib does."""
        self.assertEqual([sorted(row) for row in SIGMA], [[*range(16)]] * 10)
        for length in (0, 1, 3, 127, 128, 129, 255, 256, 257, 1000):
            message = bytes(i * 7 % 256 for i in range(length))
            for size in (1, 20, 32, 64):
                wanted = hashlib.blake2b(message, digest_size=size).digest()
                self.assertEqual(blake2b(size, message), wanted, (length, size))

    def test_options(self):
        """Each tool has GNU's options, by letter and name, in GNU's order, as far as GNU's help
        goes. The texts are our own."""
        part = r"(?:codes \"([^\"]*)\"|\[\])"
        rows = re.findall(rf"(?m)^row_of flags\.\w+ = \({part}, {part}, {part}\)$", OPTIONS)
        self.assertEqual(len(rows), OPTIONS.count("\nrow_of flags."))
        for tool in GNU_TOOLS:
            if not gnu(tool):
                self.skipTest(f"GNU coreutils has no {tool} here")
            helped = self.run_command([gnu(tool), "--help"]).out.decode()
            theirs = re.findall(r"(?m)^ +(?:-(\w), +)?--([a-z-]+)(?:=BITS)?  ", helped)
            only_b2sum = () if tool == "b2sum" else (("l", "length"),)
            with self.subTest(tool=tool):
                ours = [(letter, name) for letter, name, _ in rows]
                self.assertEqual([row for row in ours if row not in only_b2sum], theirs)
