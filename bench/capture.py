#!/usr/bin/env python3
"""Makes a capture of a file as relays would leave it: codewords by the definition of the code, dimensions erased and
injected, and random combinations of the rows that are left.

  bench/capture.py TICKET [--erased E] [--injected I] [--extra X] [--seed S] [--report REPORT] < FILE > CAPTURE
  bench/capture.py TICKET --plain [--report REPORT] < FILE > CAPTURE

Of each codeword E dimensions are erased, and I dimensions are injected that it hasn't. Then come random combinations of
what is left, until they span it, and X further ones; the frame END ends the capture. --report writes the report that
`kk unpack TICKET` owes for it. E + I is at most L - K, so that each generation decodes. --plain makes the capture that
`kk pack TICKET` owes: the rows of the codewords themselves.

This is no part of kk and takes nothing from it: it is written after docs/FORMATS.md alone, slowly and plainly.
"""
import argparse
import random
import sys

FRAME_KINDS = {"data": 0, "end": 1}


def product(a, b):
    """The carry-less product of two polynomials over GF(2), each a number whose bit i is the coefficient of X^i."""
    result = 0
    while b:
        if b & 1:
            result ^= a
        a <<= 1
        b >>= 1
    return result


def remainder(a, p):
    """The remainder of a by p."""
    while a.bit_length() >= p.bit_length():
        a ^= p << (a.bit_length() - p.bit_length())
    return a


def gcd(a, b):
    """The greatest common divisor of two polynomials."""
    while b:
        a, b = b, remainder(a, b)
    return a


def is_irreducible(p):
    """Rabin's test: X^(2^m) is X modulo p, and p has no factor of degree m/q for any prime q that divides m."""
    m = p.bit_length() - 1

    def frobenius_minus_x(times):
        power = 2
        for _ in range(times):
            power = remainder(product(power, power), p)
        return power ^ remainder(2, p)

    primes = [q for q in range(2, m + 1) if m % q == 0 and all(q % d for d in range(2, q))]
    return m >= 1 and frobenius_minus_x(m) == 0 and all(gcd(p, frobenius_minus_x(m // q)) == 1 for q in primes)


class Ticket:
    """The parts of a ticket's text, `kk1:SESSION:M:MOD:L:K:LENGTH`."""

    def __init__(self, text):
        prefix, session, m, low, l, k, length = text.split(":")
        self.text, self.session = text, int(session, 16)
        self.m, self.l, self.k, self.length = int(m), int(l), int(k), int(length)
        self.modulus = 1 << self.m | int(low, 16)
        self.generations = -(-8 * self.length // (self.k * self.m))
        if prefix != "kk1" or not is_irreducible(self.modulus) or not 1 <= self.k <= self.l <= self.m:
            raise ValueError(f"{text} is no ticket")

    def messages(self, file):
        """The messages of a file: its bits, the most significant of each byte first, k symbols of m bits a message."""
        bits = "".join(f"{byte:08b}" for byte in file).ljust(self.generations * self.k * self.m, "0")
        symbols = [int(bits[at : at + self.m], 2) for at in range(0, len(bits), self.m)]
        return [symbols[at : at + self.k] for at in range(0, len(symbols), self.k)]

    def powers(self):
        """For each evaluation point a = 2^i the powers a^(2^0), a^(2^1), .. that a message's symbols are multiplied by."""
        table = []
        for i in range(self.l):
            row = [1 << i]
            while len(row) < self.k:
                row.append(remainder(product(row[-1], row[-1]), self.modulus))
            table.append(row)
        return table

    def codeword(self, message, powers):
        """The rows (a, f(a)) of a message, each as the number a·2^m + f(a)."""
        rows = []
        for i, row in enumerate(powers):
            total = 0
            for symbol, power in zip(message, row):
                total ^= product(symbol, power)
            rows.append(1 << i + self.m | remainder(total, self.modulus))
        return rows

    def frame(self, kind, generation=0, row=0):
        """The 20 bytes of a frame."""
        head = b"KK" + bytes([1, FRAME_KINDS[kind]]) + self.session.to_bytes(4, "big")
        return head + generation.to_bytes(4, "big") + row.to_bytes(8, "big")


class Span:
    """The span of some rows, by one row for each leading bit."""

    def __init__(self, rows=()):
        self.by_lead = {}
        for row in rows:
            self.insert(row)

    def insert(self, row):
        """Adds a row, and tells whether it was outside the span."""
        while row and row.bit_length() in self.by_lead:
            row ^= self.by_lead[row.bit_length()]
        if row:
            self.by_lead[row.bit_length()] = row
        return bool(row)

    def __len__(self):
        return len(self.by_lead)


def combination(rows, rng):
    """The sum of a random choice of the rows."""
    total = 0
    for row in rows:
        if rng.getrandbits(1):
            total ^= row
    return total


def basis_of_combinations(rows, count, rng):
    """As many independent random combinations of independent rows."""
    span, basis = Span(), []
    while len(basis) < count:
        row = combination(rows, rng)
        if span.insert(row):
            basis.append(row)
    return basis


def received(ticket, codeword, erased, injected, extra, rng):
    """The rows that come of a codeword: a random part of it, of dimension l - erased, and `injected` dimensions that aren't in
    it, all mixed by random combinations."""
    rows = basis_of_combinations(codeword, ticket.l - erased, rng)
    whole = Span(codeword)
    while len(rows) < ticket.l - erased + injected:
        row = rng.getrandbits(ticket.l + ticket.m)
        if whole.insert(row):
            rows.append(row)
    span, mixed = Span(), []
    while len(span) < len(rows):
        mixed.append(combination(rows, rng))
        span.insert(mixed[-1])
    return mixed + [combination(rows, rng) for _ in range(extra)]


def capture(ticket, file, erased=0, injected=0, extra=0, seed=0):
    """The frames of a file, and the report that is owed for them."""
    if len(file) != ticket.length or erased + injected > ticket.l - ticket.k or injected > ticket.m:
        raise ValueError("the file has another length than the ticket says, or not all of it would decode")
    rng, powers = random.Random(seed), ticket.powers()
    frames, ranks = [], []
    for generation, message in enumerate(ticket.messages(file)):
        rows = received(ticket, ticket.codeword(message, powers), erased, injected, extra, rng)
        frames += [ticket.frame("data", generation, row) for row in rows]
        ranks.append(len(Span(rows)))
    return b"".join(frames) + ticket.frame("end"), report_of(len(frames), ranks)


def plain_capture(ticket, file):
    """The rows of all codewords as frames, and END; and the report that `unpack` owes for them."""
    powers = ticket.powers()
    frames = [
        ticket.frame("data", generation, row)
        for generation, message in enumerate(ticket.messages(file))
        for row in ticket.codeword(message, powers)
    ]
    return b"".join(frames) + ticket.frame("end"), report_of(len(frames), [ticket.l] * ticket.generations)


def report_of(frames, ranks):
    """The report on so many data frames and END, all of the ticket, where each generation has its rank and is decoded."""
    refused = "badlength 0 magic 0 version 0 kind 0 session 0 generation 0 row 0 endrow 0"
    lines = [f"generations {len(ranks)}", f"gate 0 end datagrams {frames + 1} frames {frames} {refused}"]
    lines += [f"generation {generation} rank {rank} decoded" for generation, rank in enumerate(ranks)]
    lines.append(f"inserts {frames} innovative {sum(ranks)} redundant {frames - sum(ranks)} late 0")
    return "".join(line + "\n" for line in [*lines, "status 0"])


def main():
    parser = argparse.ArgumentParser(description=__doc__, formatter_class=argparse.RawDescriptionHelpFormatter)
    parser.add_argument("ticket", type=Ticket)
    for name in ("--erased", "--injected", "--extra", "--seed"):
        parser.add_argument(name, type=int, default=0)
    parser.add_argument("--plain", action="store_true")
    parser.add_argument("--report")
    words = parser.parse_args()
    file = sys.stdin.buffer.read()
    if words.plain:
        frames, report = plain_capture(words.ticket, file)
    else:
        frames, report = capture(words.ticket, file, words.erased, words.injected, words.extra, words.seed)
    sys.stdout.buffer.write(frames)
    if words.report:
        with open(words.report, "w", encoding="ascii") as to:
            to.write(report)


if __name__ == "__main__":
    main()
