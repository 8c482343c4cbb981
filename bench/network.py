#!/usr/bin/env python3
"""Measures `kk send`, `kk relay` and `kk recv` over sockets of this machine, against programs that only send or only receive.

  bench/network.py [RUNS]     RUNS of each line, 3 unless told

Builds first, with `cc`, the program of bench/wire.c. One file of 1 MB goes each way. Each line is

- `send`, with 32 frames a datagram or with 1, to a program that counts; beside it a loop that sends as many datagrams of the
  same length;
- `relay` with one combination a frame, fed by such a `send`; beside it a loop that sends as many datagrams as it does;
- `recv` with 1, 2 or 4 gates, each with a `send` of its own; beside it so many programs that only receive.

bench/README.md says what the columns are. Every report, file and status is compared with what it has to be; where one is wrong
the script says so, and ends with 1.
"""
import collections
import os
import random
import re
import signal
import socket
import subprocess
import sys
import tempfile
import time

TOP = os.path.dirname(os.path.dirname(os.path.realpath(__file__)))
PROGRAM = os.environ.get("KK") or os.path.join(TOP, "boot", "kk")
FILE_BYTES = 1_000_000
# the degree of the field, the low part of its modulus, l and k
M, LOW, L, K = 31, 0x9, 24, 16
TICKET = f"kk1:00c0ffee:{M}:{LOW:016x}:{L}:{K}:{FILE_BYTES}"
GENERATIONS = -(-8 * FILE_BYTES // (K * M))
ROWS = GENERATIONS * L
FRAME_BYTES, MAX_FRAMES = 20, 32
# for how many quiets of 100 ms relay and recv wait where an END is lost, and the seconds after which a run is given up
IDLE, RUN_SECONDS = "50", 1_800
GATE = re.compile(r"^gate \d+ (end|idle) datagrams (\d+) frames (\d+) badlength", re.M)
NO_FAULTS = "badlength 0 magic 0 version 0 kind 0 session 0 generation 0 row 0 endrow 0"

Gate = collections.namedtuple("Gate", "ended datagrams frames")
# what came to a program that counts: why it ended, datagrams, data frames, and the seconds from the first to the last
Count = collections.namedtuple("Count", "ended datagrams frames seconds")
# datagrams sent and those that arrived, how many (or frames a gate) a second, the processor time of one, if that is measured,
# the whole time, and how it ended
Run = collections.namedtuple("Run", "sent arrived a_second processor seconds ended")


def sure(holds, what):
    """Ends the script where something is wrong."""
    if not holds:
        sys.exit(f"wrong: {what}")


class Program:
    """A program that was started, with its streams in files, and that listens at these addresses by now."""

    started = []

    def __init__(self, folder, words, source=os.devnull, listens=()):
        self.name = " ".join(os.path.basename(it) for it in words[:2])
        self.streams = [os.path.join(folder, f"{len(self.started)}.{stream}") for stream in ("out", "err")]
        with open(source, "rb") as taken, open(self.streams[0], "wb") as out, open(self.streams[1], "wb") as err:
            self.process = subprocess.Popen(words, stdin=taken, stdout=out, stderr=err)
        self.started.append(self.process)
        ports = {f"0100007F:{int(it.split(':')[1]):04X}" for it in listens}
        while not ports <= listening():
            sure(self.process.poll() is None, f"{self.name} ended before it listened")
            time.sleep(0.02)

    def end(self):
        """Waits until the program has ended. Then its status, its processor time and what it wrote are known."""
        _, status, used = os.wait4(self.process.pid, 0)
        self.status = os.WEXITSTATUS(status) if os.WIFEXITED(status) else -os.WTERMSIG(status)
        self.process.returncode = self.status
        self.processor = used.ru_utime + used.ru_stime
        self.out, self.err = (read_and_remove(it) for it in self.streams)
        return self


def listening():
    """The addresses of this machine's UDP sockets, as Linux has them."""
    with open("/proc/net/udp", encoding="ascii") as table:
        return {line.split()[1] for line in table}


def read_and_remove(path):
    """The bytes of a file, which is there no longer."""
    with open(path, "rb") as written:
        text = written.read()
    os.remove(path)
    return text


def free_addresses(count):
    """Addresses that nobody listens at."""
    held = [socket.socket(socket.AF_INET, socket.SOCK_DGRAM) for _ in range(count)]
    for it in held:
        it.bind(("127.0.0.1", 0))
    found = [f"127.0.0.1:{it.getsockname()[1]}" for it in held]
    for it in held:
        it.close()
    return found


def datagrams(pack):
    """The datagrams of the file with so many frames in each; END has one of its own."""
    return -(-ROWS // pack) + 1


class Bench:
    """The file, the program that only sends or receives, and a folder for them."""

    def __init__(self, folder):
        self.folder = folder
        self.file = random.Random(1).getrandbits(8 * FILE_BYTES).to_bytes(FILE_BYTES, "big")
        self.path, self.wire = os.path.join(folder, "file"), os.path.join(folder, "wire")
        with open(self.path, "wb") as made:
            made.write(self.file)
        subprocess.run(["cc", "-O2", "-o", self.wire, os.path.join(TOP, "bench", "wire.c")], check=True)

    def send_all(self, addresses, pack):
        """Sends the file to each address at once, and answers the senders and the seconds until the last has ended."""
        began = time.perf_counter()
        senders = []
        for number, address in enumerate(addresses, 1):
            words = [PROGRAM, "send", TICKET, address, "--seed", f"{number:064x}", "--pack", str(pack)]
            senders.append(Program(self.folder, words, self.path))
        for sender in senders:
            sender.end()
        seconds = time.perf_counter() - began
        report = f"datagrams {datagrams(pack)} frames {ROWS + 1}\nstatus 0\n"
        for sender in senders:
            sure((sender.status, sender.err) == (0, report.encode()), f"send ended with {sender.status}: {sender.err}")
        return senders, seconds

    def counter(self, address):
        """A program that counts what comes to this address."""
        return Program(self.folder, [self.wire, "count", address], listens=[address])

    def count(self, counter, sent):
        """What such a program counted, of so many datagrams."""
        told = counter.end().out.decode().split()
        sure(counter.status == 0, f"wire count ended with {counter.status}: {counter.err}")
        ended, came, size, nanos = told[0], *map(int, told[2::2])
        sure(2 < came <= sent, f"{came} of {sent} datagrams came")
        return Count(ended, came, size // FRAME_BYTES - (ended == "end"), nanos / 1e9)

    def loop(self, sent, size):
        """A run of the loop that only sends: so many datagrams, END among them, of so many bytes."""
        address = free_addresses(1)[0]
        counter = self.counter(address)
        loop = Program(self.folder, [self.wire, "send", address, str(sent - 1), str(size)]).end()
        sure(loop.status == 0, f"wire send ended with {loop.status}: {loop.err}")
        seconds = int(loop.out.split()[1]) / 1e9
        came = self.count(counter, sent).datagrams
        return Run(sent, came, (sent - 1) / seconds, loop.processor / sent, seconds, "")


def run_send(bench, pack):
    """A run of `send`, and one of the loop."""
    address = free_addresses(1)[0]
    counter = bench.counter(address)
    (sender,), seconds = bench.send_all([address], pack)
    sent = datagrams(pack)
    counted = bench.count(counter, sent)
    run = Run(sent, counted.datagrams, sent / counted.seconds, sender.processor / sent, seconds, "0")
    return run, bench.loop(sent, FRAME_BYTES * pack)


def gates_of(report, sent):
    """The gates of a report, of which each was sent so many datagrams, and its lines for them."""
    gates = [Gate(ended, int(came), int(frames)) for ended, came, frames in GATE.findall(report)]
    for gate in gates:
        lost = sent - 1 - (gate.datagrams - (gate.ended == "end"))
        sure(lost >= 0 and (lost == 0) == (gate.frames == ROWS), f"{gate} of {sent} datagrams")
    told = [f"{it.ended} datagrams {it.datagrams} frames {it.frames}" for it in gates]
    return gates, [f"gate {number} {it} {NO_FAULTS}" for number, it in enumerate(told)]


def run_relay(bench, pack):
    """A run of `relay`, fed by `send`, and one of the loop."""
    hears, target = free_addresses(2)
    counter = bench.counter(target)
    words = [PROGRAM, "relay", TICKET, target, hears, "--seed", f"{0:064x}", "--rate", "1", "--idle", IDLE]
    relay = Program(bench.folder, words, listens=[hears])
    began = time.perf_counter()
    bench.send_all([hears], pack)
    report = relay.end().err.decode()
    seconds = time.perf_counter() - began
    gates, lines = gates_of(report, datagrams(pack))
    sure(len(gates) == 1, f"relay ended with {relay.status}: {report}")
    # the rows of a generation are independent: each is innovative, and a combination goes out after it
    frames = gates[0].frames
    lines += [f"relayed frames {frames} innovative {frames} sent {frames}", "status 0", ""]
    sure(relay.status == 0 and report == "\n".join(lines), f"relay ended with {relay.status}: {report}")
    sent, came, ended = frames + 1, gates[0].datagrams, gates[0].ended
    counted = bench.count(counter, sent)
    run = Run(datagrams(pack), came, sent / counted.seconds, relay.processor / sent, seconds, f"0 {ended}")
    return run, bench.loop(sent, FRAME_BYTES)


def check_receiver(receiver, sent, file):
    """The gates of a receiver whose report, file and status agree: a generation has no answer exactly where it has less than
    k rows, and has all its rows where one gate lost nothing."""
    report = receiver.err.decode()
    gates, lines = gates_of(report, sent)
    ranks = [int(it) for it in re.findall(r"^generation \d+ rank (\d+)", report, re.M)]
    inserts, status = sum(it.frames for it in gates), 3 if any(it < K for it in ranks) else 0
    lines = [f"generations {GENERATIONS}", *lines]
    lines += [f"generation {i} rank {rank} {'none' if rank < K else 'decoded'}" for i, rank in enumerate(ranks)]
    lines += [f"inserts {inserts} innovative {sum(ranks)} redundant {inserts - sum(ranks)} late 0", f"status {status}", ""]
    sure(receiver.status == status and report == "\n".join(lines), f"recv ended with {receiver.status}: {report[-2000:]}")
    sure(len(ranks) == GENERATIONS and max(ranks) <= L, "recv told other generations")
    sure(all(it.frames < ROWS for it in gates) or min(ranks) == L, "recv lost rows of a gate that lost nothing")
    sure(receiver.out == (b"" if status else file), "recv wrote another file")
    return gates


def run_recv(bench, count):
    """A run of `recv` with so many gates, and one of as many programs that only receive."""
    sent = datagrams(MAX_FRAMES)
    addresses = free_addresses(count)
    receiver = Program(bench.folder, [PROGRAM, "recv", TICKET, *addresses, "--idle", IDLE], listens=addresses)
    began = time.perf_counter()
    sending = bench.send_all(addresses, MAX_FRAMES)[1]
    receiver.end()
    seconds = time.perf_counter() - began
    gates = check_receiver(receiver, sent, bench.file)
    sure(len(gates) == count, f"recv has {len(gates)} gates")
    ended = " ".join([str(receiver.status), *sorted({it.ended for it in gates})])
    run = received(sent, gates, sending)._replace(seconds=seconds, ended=ended)
    counters = [bench.counter(it) for it in addresses]
    sending = bench.send_all(addresses, MAX_FRAMES)[1]
    return run, received(sent, [bench.count(it, sent) for it in counters], sending)


def received(sent, each, sending):
    """The run in which each of these gates or counts was sent so many datagrams, in so many seconds."""
    came, frames = sum(it.datagrams for it in each), sum(it.frames for it in each)
    return Run(sent * len(each), came, frames / len(each) / sending, None, sending, "")


def share(runs):
    """The share of datagrams that arrived in these runs."""
    sent, arrived = sum(it.sent for it in runs), sum(it.arrived for it in runs)
    # 1 is told where none was lost, and no rounding tells it
    return "1" if arrived == sent else f"{min(arrived / sent, 0.9999):.4f}"


def row(name, runs):
    """The line of a table for these runs, each with the one beside it."""
    ours, others = zip(*runs)
    fastest, other = (max(it.a_second for it in side) for side in (ours, others))
    processor = ""
    if ours[0].processor is not None:
        processor = f"{min(it.processor for it in ours) / min(it.processor for it in others):.1f}"
    cells = [name, str(ours[0].sent), share(ours), f"{fastest:.0f}", share(others), f"{other:.0f}"]
    cells += [f"{fastest / other:.3f}", processor, f"{min(it.seconds for it in ours):.2f}"]
    return "| " + " | ".join([*cells, ", ".join(sorted({it.ended for it in ours}))]) + " |"


COLUMNS = ["", "datagrams", "arrive", "a second", "arrive, `wire`", "a second, `wire`"]
COLUMNS += ["to `wire`", "processor time", "seconds", "status"]
LINES = [(f"`send --pack {pack}`", run_send, pack) for pack in (MAX_FRAMES, 1)]
LINES += [(f"`relay`, fed by `send --pack {pack}`", run_relay, pack) for pack in (MAX_FRAMES, 1)]
LINES += [(f"`recv`, {count} gate{'s' * (count > 1)}", run_recv, count) for count in (1, 2, 4)]


def main():
    runs = int(sys.argv[1]) if len(sys.argv) > 1 else 3
    if not os.environ.get("KK"):
        subprocess.run([os.path.join(TOP, "boot", "check")], stdout=sys.stderr, check=True)
    signal.signal(signal.SIGALRM, lambda *_: sys.exit(f"wrong: a run took {RUN_SECONDS} seconds"))
    print("| " + " | ".join(COLUMNS) + " |")
    print("|---" * len(COLUMNS) + "|")
    with tempfile.TemporaryDirectory() as folder:
        try:
            bench = Bench(folder)
            for name, run, number in LINES:
                made = []
                for _ in range(runs):
                    signal.alarm(RUN_SECONDS)
                    made.append(run(bench, number))
                print(row(name, made), flush=True)
        finally:
            signal.alarm(0)
            for process in Program.started:
                if process.poll() is None:
                    process.kill()
                    process.wait()


if __name__ == "__main__":
    main()
