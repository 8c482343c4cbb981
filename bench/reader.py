"""Reads frames as docs/FORMATS.md says, and tells the report, the file and the status that `unpack` and `recv` owe for them.

This is no part of kk and takes nothing from it: it is written after docs/FORMATS.md alone. A generation is decoded by trying
each message, so the code has to be a small one.
"""
import collections
import itertools

from capture import Span

FRAME_BYTES, MAX_BYTES, MOST = 20, 640, 10_000_000
REFUSED = ("badlength", "magic", "version", "kind", "session", "generation", "row", "endrow")


class Reader:
    """The counts of some gates of one ticket, and the spans that the rows of all of them have."""

    def __init__(self, ticket, gates=1, most=MOST):
        self.ticket, self.most = ticket, most
        self.session, self.width = ticket.session.to_bytes(4, "big"), ticket.l + ticket.m
        self.spaces = [Span() for _ in range(ticket.generations)]
        self.gates = [collections.Counter() for _ in range(gates)]
        self.ended = [None] * gates

    def piece(self, piece):
        """What 20 bytes are: the name of the first rule that they break, `end`, or a generation and a row."""
        if piece[:2] != b"KK":
            return "magic"
        if piece[2] != 1:
            return "version"
        if piece[3] > 1:
            return "kind"
        if piece[4:8] != self.session:
            return "session"
        if piece[3] == 1:
            return "endrow" if any(piece[8:]) else "end"
        generation, row = int.from_bytes(piece[8:12], "big"), int.from_bytes(piece[12:], "big")
        if generation >= self.ticket.generations:
            return "generation"
        return "row" if row >> self.width else (generation, row)

    def pieces(self, datagram):
        """What the pieces of a datagram are, up to the first END; `badlength` alone where it is no number of frames."""
        if not FRAME_BYTES <= len(datagram) <= MAX_BYTES or len(datagram) % FRAME_BYTES:
            return ["badlength"]
        found = []
        for at in range(0, len(datagram), FRAME_BYTES):
            found.append(self.piece(datagram[at : at + FRAME_BYTES]))
            if found[-1] == "end":
                break
        return found

    def take(self, datagram, gate=0):
        """A datagram comes to a gate, or a piece of a capture to `unpack`."""
        if self.ended[gate]:
            return
        counts = self.gates[gate]
        counts["datagrams"] += 1
        for found in self.pieces(datagram):
            if found == "end":
                self.ended[gate] = "end"
            elif isinstance(found, str):
                counts[found] += 1
            else:
                counts["frames"] += 1
                self.spaces[found[0]].insert(found[1])
        if counts["datagrams"] == self.most and not self.ended[gate]:
            self.ended[gate] = "most"

    def take_capture(self, capture):
        """A capture comes to `unpack`. The answer is how many of its bytes are taken."""
        for at in range(0, len(capture), FRAME_BYTES):
            self.take(capture[at : at + FRAME_BYTES])
            if self.ended[0]:
                return min(at + FRAME_BYTES, len(capture))
        self.ended[0] = "over"
        return len(capture)

    def answers(self):
        """The message of each generation, or None."""
        codewords = codewords_of(self.ticket)
        return [answer(self.ticket, codewords, space) for space in self.spaces]

    def owed(self, failed=False):
        """The status, the file and the report that are owed; `failed` where a gate failed."""
        answers, ranks = self.answers(), [len(it) for it in self.spaces]
        status = 0 if None not in answers else 6 if failed else 3
        frames = sum(it["frames"] for it in self.gates)
        lines = [f"generations {len(ranks)}"]
        for i, (counts, ended) in enumerate(zip(self.gates, self.ended)):
            refused = " ".join(f"{name} {counts[name]}" for name in REFUSED)
            lines.append(f"gate {i} {ended} datagrams {counts['datagrams']} frames {counts['frames']} {refused}")
        for i, (rank, found) in enumerate(zip(ranks, answers)):
            lines.append(f"generation {i} rank {rank} {'none' if found is None else 'decoded'}")
        lines.append(f"inserts {frames} innovative {sum(ranks)} redundant {frames - sum(ranks)} late 0")
        report = "".join(f"{line}\n" for line in [*lines, f"status {status}"])
        return status, b"" if status else joined(self.ticket, answers), report.encode()


def codewords_of(ticket):
    """Each message with the rows of its codeword."""
    powers = ticket.powers()
    messages = itertools.product(range(1 << ticket.m), repeat=ticket.k)
    return [(message, ticket.codeword(message, powers)) for message in messages]


def answer(ticket, codewords, space):
    """The message whose codeword lies within distance l - k of this space, or None."""
    for message, codeword in codewords:
        both = Span()
        both.by_lead = dict(space.by_lead)
        grown = sum(both.insert(row) for row in codeword)
        # dim U + dim V - 2·dim(U ∩ V), where dim U + grown is the dimension of the sum
        if len(space) + 2 * grown - ticket.l <= ticket.l - ticket.k:
            return message
    return None


def joined(ticket, messages):
    """The file of these messages."""
    bits = "".join(f"{symbol:0{ticket.m}b}" for message in messages for symbol in message)
    return bytes(int(bits[at : at + 8], 2) for at in range(0, 8 * ticket.length, 8))
