"""Datagrams and captures that nobody should send: the groups `datagrams`, `captures` and `strangers` of bench/attack.py."""
import contextlib
import os
import time

from capture import Span, Ticket, capture, plain_capture
from program import ONE_BYTE, RUN_SECONDS, SEED, Feed, Kk, bound, frame, free, noise
from reader import REFUSED, Reader



class Hostile:
    """Makes datagrams that nobody should send, and some that one should."""

    def __init__(self, ticket, file, rng):
        self.ticket, self.rng = ticket, rng
        whole = plain_capture(ticket, file)[0]
        self.frames = [whole[at : at + 20] for at in range(0, len(whole) - 20, 20)]
        self.kinds = [self.random, self.lengths, self.flipped, self.flipped, self.fields, self.fields, self.valid, self.mixed]

    def some(self, most=32):
        """Some valid frames."""
        return b"".join(self.rng.choice(self.frames) for _ in range(self.rng.randint(1, most)))

    def random(self):
        """Random bytes, most of them as long as frames are."""
        longest = self.rng.choice((40, 700, 700, 700, 1500)) if self.rng.random() < 0.999 else 65_507
        return noise(self.rng, self.rng.randint(0, longest))

    def lengths(self):
        """Valid frames, cut where a length is at its limit."""
        length = self.rng.choice((0, 1, 19, 20, 21, 39, 639, 640, 641, 660) if self.rng.random() < 0.99 else (65_507,))
        return (self.some(1) * (length // 20 + 1))[:length]

    def flipped(self):
        """Valid frames of which some bits are flipped."""
        found = bytearray(self.some(4))
        for _ in range(self.rng.randint(1, 4)):
            found[self.rng.randrange(len(found))] ^= 1 << self.rng.randrange(8)
        return bytes(found)

    def fields(self):
        """A frame with a field that isn't this ticket's."""
        rng, ticket = self.rng, self.ticket
        generation, wide = rng.randrange(ticket.generations), ticket.l + ticket.m
        return rng.choice((
            lambda: frame(ticket, session=rng.getrandbits(32), kind=rng.randint(0, 1)),
            lambda: frame(ticket, version=rng.getrandbits(8), row=1 << ticket.m),
            lambda: frame(ticket, kind=rng.getrandbits(8), generation=generation, row=rng.getrandbits(wide)),
            lambda: frame(ticket, generation=rng.getrandbits(32), row=rng.getrandbits(wide)),
            lambda: frame(ticket, generation=ticket.generations),
            lambda: frame(ticket, generation=generation, row=rng.getrandbits(64)),
            lambda: frame(ticket, generation=generation, row=1 << wide),
            lambda: frame(ticket, generation=generation),
            lambda: frame(ticket, kind=1, generation=rng.getrandbits(32), row=rng.getrandbits(64)),
            lambda: frame(ticket, kind=1, session=ticket.session ^ 1 << rng.randrange(32)),
        ))()

    def valid(self):
        """Frames of the file."""
        return self.some()

    def mixed(self):
        """Up to 32 pieces of all kinds."""
        kinds = (lambda: noise(self.rng, 20), lambda: self.flipped()[:20], self.fields, lambda: self.some(1))
        return b"".join(self.rng.choice(kinds)() for _ in range(self.rng.randint(1, 32)))

    def datagram(self):
        """One of these."""
        return self.rng.choice(self.kinds)()


def codeword_spans(ticket, file):
    """The span of each generation's codeword."""
    powers = ticket.powers()
    return [Span(ticket.codeword(message, powers)) for message in ticket.messages(file)]


def within(space, row):
    """Whether a row is in a span."""
    while row and row.bit_length() in space.by_lead:
        row ^= space.by_lead[row.bit_length()]
    return not row


def does_harm(reader, spans, datagram, harmless):
    """Whether a datagram would end a gate, or, where none of them may harm, has a row that no codeword has."""
    for found in reader.pieces(datagram):
        if found == "end" or harmless and isinstance(found, tuple) and not within(spans[found[0]], found[1]):
            return True
    return False


def hostile_run(table, name, ticket, file, count, rng, harmless):
    """So many datagrams at two gates; where they are harmless the file has to come out."""
    hostile, reader, spans = Hostile(ticket, file, rng), Reader(ticket, 2), codeword_spans(ticket, file)
    hears = free(2)
    with Kk("recv", ticket.text, *hears, "--most", "100000000", "--idle", "600") as kk:
        feed = Feed(kk.listens_at(*hears), hears)
        began, memory, sent = time.monotonic(), [], 0
        while sent < count:
            datagram = hostile.datagram()
            if does_harm(reader, spans, datagram, harmless):
                continue
            gate = rng.randint(0, 1)
            reader.take(datagram, gate)
            feed.send(datagram, gate)
            sent += 1
            if sent % 1000 == 0:
                memory.append(kk.memory())
        lost = feed.lost()
        for gate in range(2):
            reader.take(frame(ticket, kind=1), gate)
            feed.send(frame(ticket, kind=1), gate)
        came = kk.end()
    seconds = time.monotonic() - began
    note = f"{count} datagrams in {seconds:.0f} s, {lost} lost"
    # pages of the storage that was taken at the start are first touched as rows come
    tenth, most = memory[len(memory) // 10], max(memory[len(memory) // 10 :])
    note += f"; {memory[0]} KiB after 1,000, {tenth} KiB after a tenth, {most} KiB at most then"
    table.case(name, reader.owed(), came, note)
    refused = {it: sum(gate[it] for gate in reader.gates) for it in ("frames", *REFUSED)}
    print(f"|  counts | {' '.join(f'{name} {count}' for name, count in refused.items())} |  |", flush=True)
    if len(memory) >= 100:
        table.case(f"{name}: KiB that it grows by after a tenth", 0, most - tenth)


def tolerant_run(table, ticket, file, count, rng):
    """So many harmless datagrams at two gates that tolerate three dimensions: the file comes, and each insert is counted once."""
    hostile, reader, spans = Hostile(ticket, file, rng), Reader(ticket, 2), codeword_spans(ticket, file)
    hears = free(2)
    with Kk("recv", ticket.text, *hears, "--tolerate", "3") as kk:
        feed = Feed(kk.listens_at(*hears), hears)
        for number in range(count):
            datagram = hostile.datagram()
            if not does_harm(reader, spans, datagram, True):
                reader.take(datagram, number % 2)
                feed.send(datagram, number % 2)
        for gate in range(2):
            reader.take(frame(ticket, kind=1), gate)
            feed.send(frame(ticket, kind=1), gate)
        status, came, report = kk.end()
    owed = reader.owed()
    told = report.decode().split("\n")
    ranks = sum(int(line.split()[3]) for line in told if line.startswith("generation "))
    inserts, *parts = [int(it) for it in told[-3].split()[1::2]]
    wanted = 0, file, "\n".join(owed[2].decode().split("\n")[1:3]).encode(), True
    found = status, came, "\n".join(told[1:3]).encode(), inserts == sum(parts) and parts[0] == ranks
    table.case("`recv --tolerate 3`, two gates: the lines of the gates", wanted, found, f"{sum(it['datagrams'] for it in reader.gates)} datagrams")


def relay_run(table, ticket, file, count, rng):
    """So many datagrams at a relay: it sends a combination for each data frame of a generation that has a row."""
    hostile, reader, sent = Hostile(ticket, file, rng), Reader(ticket), 0
    hears = free()
    with Kk("relay", ticket.text, *free(), *hears, *SEED) as kk:
        feed = Feed(kk.listens_at(*hears), hears)
        for _ in range(count):
            datagram = hostile.datagram()
            if not does_harm(reader, None, datagram, False):
                for at in range(0, len(datagram), 20) if "badlength" not in reader.pieces(datagram) else ():
                    found = reader.piece(datagram[at : at + 20])
                    if isinstance(found, tuple):
                        reader.spaces[found[0]].insert(found[1])
                        sent += len(reader.spaces[found[0]]) > 0
                reader.take(datagram)
                feed.send(datagram)
        memory = kk.memory()
        reader.take(frame(ticket, kind=1))
        feed.send(frame(ticket, kind=1))
        came = kk.end()
    gate, frames = reader.owed()[2].decode().split("\n")[1], reader.gates[0]["frames"]
    report = f"{gate}\nrelayed frames {frames} innovative {sum(map(len, reader.spaces))} sent {sent}\nstatus 0\n"
    table.case("`relay`: all kinds of datagrams", (0, b"", report.encode()), came, f"{reader.gates[0]['datagrams']} datagrams, {memory} KiB at the end")


def flood(table, rng):
    """As many datagrams as the system takes, faster than any gate reads: the gate takes `--most` of them and no more."""
    ticket, most, hears = Ticket(ONE_BYTE), 200_000, free()
    reader = Reader(ticket, most=most)
    with Kk("recv", ONE_BYTE, *hears, "--most", str(most)) as kk:
        feed, sent = Feed(kk.listens_at(*hears), hears), 0
        datagram, before, until = noise(rng, 20), kk.memory(), time.monotonic() + RUN_SECONDS
        while kk.process.poll() is None and time.monotonic() < until:
            for _ in range(100):
                with contextlib.suppress(OSError):
                    feed.socket.sendto(datagram, feed.places[0])
            sent, after = sent + 100, kk.memory() or before
        came = kk.end()
    for _ in range(most):
        reader.take(datagram)
    table.case(f"a flood, `--most {most}`", reader.owed(), came, f"{sent} sent; {before} KiB before, {after} KiB after")


def datagrams(table, rng, count):
    """Random and mutated datagrams."""
    file = noise(rng, 100)
    ticket = Ticket(f"kk1:00c0ffee:8:000000000000001b:8:1:{len(file)}")
    hostile_run(table, "`recv`, two gates: all kinds of datagrams", ticket, file, count // 2, rng, False)
    hostile_run(table, "`recv`, two gates: only rows of the file are taken", ticket, file, count // 2, rng, True)
    tolerant_run(table, ticket, file, count // 10, rng)
    relay_run(table, ticket, file, count // 10, rng)
    flood(table, rng)


def mutated(rng, whole):
    """A capture after a few bad things have happened to it."""
    found = bytearray(whole)
    for _ in range(rng.randint(1, 6)):
        at, size = rng.randrange(len(found) or 1), rng.choice((1, 2, 19, 20, 21, 40))
        what = rng.randrange(5)
        if what == 0 and found:
            found[at % len(found)] ^= 1 << rng.randrange(8)
        elif what == 1:
            del found[at : at + size]
        elif what == 2:
            found[at:at] = noise(rng, size)
        elif what == 3:
            found[at:at] = found[at : at + size]
        elif rng.random() < 0.2:
            del found[at:]
    return bytes(found)


def piped(ticket, bytes_in, size, *options):
    """Unpacks bytes that come through a pipe in pieces of so many bytes. The answer is also what the pipe has left."""
    out, into = os.pipe()
    with Kk("unpack", ticket.text, *options, stdin=out) as kk:
        writer = os.fork()
        if writer == 0:
            with contextlib.suppress(OSError):
                os.close(out)
                for at in range(0, len(bytes_in), size):
                    os.write(into, bytes_in[at : at + size])
            os._exit(0)
        os.close(into)
        came = kk.end()
        left = b""
        while True:
            piece = os.read(out, 65_536)
            left += piece
            if not piece:
                break
        os.close(out)
        os.waitpid(writer, 0)
    return (*came, len(left))


def captures(table, rng, count):
    """Random bytes and mutated captures."""
    ticket = Ticket("kk1:00c0ffee:8:000000000000001b:8:1:40")
    file = noise(rng, ticket.length)
    for size in (1, 3, 7, 20, 4097):
        reader, many = Reader(ticket), noise(rng, count + rng.randint(1, 19))
        taken = reader.take_capture(many)
        began = time.monotonic()
        came = piped(ticket, many, size)
        note = f"{time.monotonic() - began:.1f} s"
        table.case(f"{len(many)} random bytes, {size} at a time", (*reader.owed(), len(many) - taken), came, note)
    wanted, came, statuses = [], [], {}
    for number in range(400):
        loss = rng.randint(0, 3), rng.randint(0, 3)
        whole = capture(ticket, file, *loss, extra=rng.randint(0, 4), seed=number)[0] + noise(rng, 45)
        whole, reader, size = mutated(rng, whole), Reader(ticket), rng.choice((1, 3, 7, 19, 20, 21, 4097))
        taken = reader.take_capture(whole)
        wanted.append((*reader.owed(), len(whole) - taken))
        came.append(piped(ticket, whole, size))
        statuses[wanted[-1][0]] = statuses.get(wanted[-1][0], 0) + 1
    wrong = [at for at in range(len(wanted)) if wanted[at] != came[at]]
    table.case("400 mutated captures in pieces of odd sizes: wrong ones", [], wrong, f"by status {statuses}")
    whole = plain_capture(ticket, file)[0]
    reader = Reader(ticket, most=50)
    taken = reader.take_capture(whole)
    table.case("`--most 50`", (*reader.owed(), len(whole) - taken), piped(ticket, whole, 7, "--most", "50"))


def received(ticket, steps, gates=1):
    """Receives these steps, each a gate and a datagram by a socket of its own, and answers what is owed and what came."""
    reader, hears = Reader(ticket, gates), free(gates)
    with Kk("recv", ticket.text, *hears, "--idle", "10") as kk:
        kk.listens_at(*hears)
        for gate, datagram in steps:
            reader.take(datagram, gate)
            with contextlib.suppress(RuntimeError, ConnectionError):
                feed = Feed(kk, hears)
                feed.send(datagram, gate)
                feed.settle()
        came = kk.end()
    reader.ended = [it or "idle" for it in reader.ended]
    return reader.owed(), came


def strangers(table, rng, _):
    """Datagrams of senders that have no part in it."""
    ticket, file = Ticket("kk1:00c0ffee:8:000000000000001b:8:1:12"), noise(rng, 12)
    whole = plain_capture(ticket, file)[0][:-20]
    front, *rest = [(0, whole[at : at + 640]) for at in range(0, len(whole), 640)]
    end, other_end = (0, frame(ticket, kind=1)), (0, frame(ticket, kind=1, session=7))
    within_it = 0, whole[640:840] + end[1] + whole[840:1040]
    others = [(0, frame(ticket, session=7, row=1 << 8)), (0, frame(ticket, version=2)), (0, noise(rng, 60)), other_end]
    for name, steps, gates in (
        ("a stranger's END amid the file: what comes after it isn't taken", [front, end, *rest, end], 1),
        ("a stranger's END after the file", [front, *rest, end, end], 1),
        ("a stranger's END at one of two gates", [(1, end[1]), front, *rest, end], 2),
        ("an END within a datagram: what stands after it isn't taken", [front, within_it], 1),
        ("END of another session and of another version", [front, other_end, (0, frame(ticket, kind=1, version=2)), *rest, end], 1),
        ("frames of other sessions and versions amid the file", [others[0], front, *others, *rest, end], 1),
        ("a file by two senders at once, of two sessions", [it for step in (front, *rest) for it in (step, others[0])] + [end], 1),
        ("no END: the gate ends after ten quiets", [front, *rest], 1),
    ):
        table.case(name, *received(ticket, steps, gates))
    relayed(table, ticket, end[1])


def relayed(table, ticket, end):
    """A stranger's END at a relay: it sends END, and ends."""
    hears, (target, address) = free(), bound()
    with Kk("relay", ticket.text, address, *hears, *SEED) as kk:
        feed = Feed(kk.listens_at(*hears), hears)
        feed.send(frame(ticket, session=7, kind=1))
        feed.send(end)
        status, _, report = kk.end()
    refused = " ".join(f"{name} {int(name == 'session')}" for name in REFUSED)
    wanted = f"gate 0 end datagrams 2 frames 0 {refused}\nrelayed frames 0 innovative 0 sent 0\nstatus 0\n"
    table.case("`relay`: a stranger's END is passed on", (0, wanted.encode(), end), (status, report, target.recv(700)))
    target.close()
