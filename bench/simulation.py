#!/usr/bin/env python3
"""Writes the report that `kk sim` owes: the file by the words of the generator, its codewords after the channel, and the answer
of each generation by trying every message against what comes out.

  bench/simulation.py TICKET ERASE INJECT GATES --seed HEX

A code has at most a million messages here, unless the message that was made is within distance L - K of what comes out, since
there is at most one. Other numbers of gates make no other report.

This is no part of kk and takes nothing from it: it is written after docs/FORMATS.md alone, slowly and plainly.
"""
import argparse
import itertools
import struct

from capture import Span, Ticket

MOST_MESSAGES = 1_000_000
BLOCK_START = struct.unpack("<4I", b"expand 32-byte k")


def quarter(x, a, b, c, d):
    """A quarter round of ChaCha on the numbers a, b, c and d of x."""
    for one, to, other, bits in ((a, b, d, 16), (c, d, b, 12), (a, b, d, 8), (c, d, b, 7)):
        x[one] = x[one] + x[to] & 0xFFFFFFFF
        turned = x[other] ^ x[one]
        x[other] = (turned << bits | turned >> 32 - bits) & 0xFFFFFFFF


def words_of(seed):
    """The words of 64 bits of ChaCha20 with this key and the nonce 0: each is two numbers of 32 bits, the lower half first."""
    key = struct.unpack("<8I", seed)
    for block in itertools.count():
        start = [*BLOCK_START, *key, block & 0xFFFFFFFF, block >> 32, 0, 0]
        x = list(start)
        for _ in range(10):
            for at in range(4):
                quarter(x, at, at + 4, at + 8, at + 12)
            for at in range(4):
                quarter(x, at, (at + 1) % 4 + 4, (at + 2) % 4 + 8, (at + 3) % 4 + 12)
        numbers = [a + b & 0xFFFFFFFF for a, b in zip(x, start)]
        for low, high in zip(numbers[::2], numbers[1::2]):
            yield high << 32 | low


def chosen(rows, word):
    """The sum of the rows at whose places the word has a 1."""
    total = 0
    for i, row in enumerate(rows):
        if word >> i & 1:
            total ^= row
    return total


def after_channel(rows, erase, inject, words):
    """What comes out of the channel for a codeword."""
    mixed = [row ^ chosen(rows[:i], next(words)) for i, row in enumerate(rows)]
    out = mixed[erase:]
    for j in range(inject):
        low, word = next(words), next(words)
        out.append(1 << j ^ low % (1 << j) ^ chosen(rows, word))
    return out


def distance(a, b):
    """The subspace distance of the spans of two lists of rows."""
    return 2 * len(Span([*a, *b])) - len(Span(a)) - len(Span(b))


def answer(ticket, powers, rows, made):
    """The message whose codeword lies within distance L - K of these rows, if there is one."""
    def is_near(message):
        return distance(ticket.codeword(message, powers), rows) <= ticket.l - ticket.k

    if is_near(made):
        return made
    if 1 << ticket.m * ticket.k > MOST_MESSAGES:
        raise ValueError("this code has too many messages to try each")
    every = itertools.product(range(1 << ticket.m), repeat=ticket.k)
    return next((list(message) for message in every if is_near(message)), None)


def file_of(ticket, messages):
    """The file that these messages make."""
    bits = "".join(f"{symbol:0{ticket.m}b}" for message in messages for symbol in message)
    return bytes(int(bits[8 * at : 8 * at + 8], 2) for at in range(ticket.length))


def report(ticket, erase, inject, seed):
    """The summary and the status."""
    words, powers = words_of(seed), ticket.powers()
    made = b"".join(next(words).to_bytes(8, "big") for _ in range(-(-ticket.length // 8)))[: ticket.length]
    answers = []
    for message in ticket.messages(made):
        rows = after_channel(ticket.codeword(message, powers), erase, inject, words)
        answers.append(answer(ticket, powers, rows, message))
    if None in answers:
        fate = "none"
    else:
        fate = "equal" if file_of(ticket, answers) == made else "different"
    rows = len(answers) * (ticket.l - erase + inject)
    lines = [f"generations {len(answers)}", f"decoded {len(answers) - answers.count(None)}"]
    lines += [f"inserts {rows} innovative {rows} redundant 0 late 0", f"file {fate}", f"status {3 if None in answers else 0}"]
    return "".join(line + "\n" for line in lines)


def main():
    parser = argparse.ArgumentParser(description=__doc__, formatter_class=argparse.RawDescriptionHelpFormatter)
    parser.add_argument("ticket", type=Ticket)
    for name in ("erase", "inject", "gates"):
        parser.add_argument(name, type=int)
    parser.add_argument("--seed", type=bytes.fromhex, required=True)
    words = parser.parse_args()
    print(report(words.ticket, words.erase, words.inject, words.seed), end="")


if __name__ == "__main__":
    main()
