#!/usr/bin/env python3
"""Attacks a built program: hostile datagrams and captures, broken streams, bad addresses, signals, refused calls of the system.

  bench/attack.py PROGRAM [GROUP ..] [--count N] [--seed S]

PROGRAM is the built kk, as crates/kk_main/out/kk_main. Without GROUP all groups run, each bounded in count and time:

  datagrams   N random and mutated datagrams, a million unless told, at two gates of `recv`; and a flood at one
  captures    N random bytes, and mutated captures, through `unpack` from a pipe, in pieces of odd sizes
  strangers   an END by a stranger, and frames of other sessions and versions amid valid ones
  streams     standard streams that are closed, full, the wrong way round, or a pipe whose reader is gone
  addresses   addresses that are taken, malformed, of IPv6 or a name, and targets where nobody listens
  signals     SIGSTOP and SIGCONT again and again, and signals that end a program
  gates       `recv` with sixteen gates on a machine whose processors are all busy
  calls       each call of the system is refused in turn, by strace; without strace the group is left out
  memory      limits of the address space, from none to enough, and a small stack
  requests    each request for memory is refused in turn, by the program of bench/refuse.c; without cc it is left out

What is owed is read in docs/FORMATS.md: bench/reader.py tells it of frames, and the cases tell it of the others. A line of the
table is a case; the script ends with 1 where one came otherwise. Nothing goes to other addresses than 127.0.0.1 and ::1.
"""
import argparse
import os
import random
import signal
import subprocess
import sys
import time

sys.dont_write_bytecode = True
from capture import Ticket, plain_capture
from failing import calls, memory, requests, streams
from hostile import captures, datagrams, strangers
from program import ONE_BYTE, RUN_SECONDS, SEED, Feed, Kk, Table, bound, cannot, frame, free, noise, run, sockets
from reader import REFUSED, Reader

# none of them has a name that the system would look for elsewhere
MALFORMED = ("127.0.0.1", "127.0.0.1:", ":9000", "127.0.0.1:65536", "127.0.0.1:9000x", "127.0.0.1:-1", "127.0.0.1: 9000", "[::1]",
             "256.0.0.1", "1.2.3:99999", "/dev/null", "", "-", "9000", "\u00e4")


def addresses(table, rng, _):
    """Addresses of sockets."""
    for address in MALFORMED:
        table.case(f"`recv` at ‘{address}’", cannot(address), run("recv", ONE_BYTE, address))
        table.case(f"`send` to ‘{address}’", cannot(address), run("send", ONE_BYTE, address, *SEED, stdin=b"\xa0"))
    taken, address = bound()
    table.case("`recv` at an address that is taken", cannot(address), run("recv", ONE_BYTE, address))
    table.case("`relay` from one", cannot(address), run("relay", ONE_BYTE, free()[0], address, *SEED))
    table.case("`recv` at 16 addresses of which the last is taken", cannot(address), run("recv", ONE_BYTE, *free(15), address))
    table.case("`recv` twice at one", cannot(address), run("recv", ONE_BYTE, address, address))
    taken.close()
    came = run("send", ONE_BYTE, "127.0.0.1:0", *SEED, stdin=b"\xa0")
    table.case("`send` to port 0", (7, b"", b"outlet fault\nstatus 7\n"), came)
    words = [ONE_BYTE, b"\xff:9000"]
    table.case("an address that isn't UTF-8", (1, b"", b"words\nstatus 1\n"), run("recv", *words))
    nobody_listens(table, rng)
    for host in ("127.0.0.1", "::1", "localhost"):
        both_ends(table, host, rng)


def nobody_listens(table, rng):
    """Targets where nobody listens, so that the system is told that each datagram is refused; and one that goes away."""
    ticket, file = Ticket("kk1:00c0ffee:8:000000000000001b:8:1:100"), noise(rng, 100)
    for address in (*free(), *free(1, "::1")):
        came = run("send", ticket.text, address, *SEED, "--pack", "1", stdin=file)
        wanted = 0, b"", b"datagrams 801 frames 801\nstatus 0\n"
        table.case(f"`send` of 801 datagrams to {address.rsplit(':', 1)[0]}, where nobody listens", wanted, came)
    made, address = bound()
    with Kk("send", ticket.text, address, *SEED, "--pack", "1", "--extra", "100", stdin=file) as kk:
        made.recv(700)
        made.close()
        wanted = 0, b"", b"datagrams 10801 frames 10801\nstatus 0\n"
        table.case("`send` of 10,801 to one that goes away after the first", wanted, kk.end())
    hears = free()
    with Kk("relay", ticket.text, *free(), *hears, *SEED) as kk:
        feed, frames = Feed(kk.listens_at(*hears), hears), plain_capture(ticket, file)[0]
        for at in range(0, len(frames), 20):
            feed.send(frames[at : at + 20])
        came = kk.end()
    refused = " ".join(f"{name} 0" for name in REFUSED)
    wanted = f"gate 0 end datagrams 801 frames 800 {refused}\nrelayed frames 800 innovative 800 sent 800\nstatus 0\n"
    table.case("`relay` of 800 frames to one where nobody listens", (0, b"", wanted.encode()), came)


def both_ends(table, host, rng):
    """A file goes from `send` to `recv` by addresses of this host."""
    ticket, file = Ticket("kk1:00c0ffee:8:000000000000001b:8:1:100"), noise(rng, 100)
    port = free(1, "127.0.0.1" if host == "localhost" else host)[0].rsplit(":", 1)[1]
    address = f"[{host}]:{port}" if ":" in host else f"{host}:{port}"
    reader = Reader(ticket)
    whole = plain_capture(ticket, file)[0]
    for at in range(0, len(whole) - 20, 640):
        reader.take(whole[: len(whole) - 20][at : at + 640])
    reader.take(whole[-20:])
    with Kk("recv", ticket.text, address, "--idle", "20") as kk:
        until = time.monotonic() + RUN_SECONDS
        while not any(it.endswith(f":{port}") for it in sockets()) and time.monotonic() < until:
            time.sleep(0.01)
        sent = run("send", ticket.text, address, *SEED, stdin=file)
        table.case(f"`send` and `recv` by `{address.rsplit(':', 1)[0]}`", (0, *reader.owed()), (sent[0], *kk.end()))


def stopped(process, times, pause=0.01):
    """Stops a process for so long and lets it go on, so many times."""
    for _ in range(times):
        process.send_signal(signal.SIGSTOP)
        time.sleep(pause)
        process.send_signal(signal.SIGCONT)
        time.sleep(0.005)


def signals(table, rng, _):
    """Signals that stop a program for a while, and that end it."""
    ticket, file = Ticket("kk1:00c0ffee:8:000000000000001b:8:1:12"), noise(rng, 12)
    whole = plain_capture(ticket, file)[0]
    for pause, times, size in ((0.01, 10, 60), (1.0, 1, 600)):
        reader, hears = Reader(ticket), free()
        with Kk("recv", ticket.text, *hears, "--idle", "3") as kk:
            feed, count = Feed(kk.listens_at(*hears), hears), 0
            for at in range(0, len(whole), size):
                stopped(kk.process, times, pause)
                count += times
                reader.take(whole[at : at + size])
                feed.send(whole[at : at + size])
            came = kk.end()
        table.case(f"`recv --idle 3`, stopped {count} times for {pause} s", reader.owed(), came)
    reader = Reader(ticket)
    reader.take_capture(whole)
    out, into = os.pipe()
    with Kk("unpack", ticket.text, stdin=out) as kk:
        for at in range(0, len(whole), 7):
            stopped(kk.process, 1, 0.002)
            os.write(into, whole[at : at + 7])
        os.close(into)
        os.close(out)
        table.case("`unpack` from a pipe, stopped before each seven bytes", reader.owed(), kk.end())
    target, address = bound()
    with Kk("send", ticket.text, address, *SEED, "--pack", "1", "--extra", "1000", stdin=file) as kk:
        for _ in range(30):
            stopped(kk.process, 1, 0.005)
        table.case("`send` of 12,097 datagrams, stopped 30 times", (0, b"", b"datagrams 12097 frames 12097\nstatus 0\n"), kk.end())
    target.close()
    ended_by_signals(table, ticket, whole)


def ended_by_signals(table, ticket, whole):
    """Signals that end a program in the middle: it has no report, and wrote no file."""
    for name in ("SIGTERM", "SIGINT", "SIGHUP"):
        number, hears = getattr(signal, name), free()
        with Kk("recv", ticket.text, *hears) as kk:
            feed = Feed(kk.listens_at(*hears), hears)
            feed.send(whole[:640])
            feed.settle()
            kk.process.send_signal(number)
            table.case(f"{name} at `recv`", (-number, b"", b""), kk.end(5))
        out, into = os.pipe()
        with Kk("unpack", ticket.text, stdin=out) as kk:
            os.write(into, whole[:50])
            time.sleep(0.1)
            kk.process.send_signal(number)
            table.case(f"{name} at `unpack`", (-number, b"", b""), kk.end(5))
        os.close(into)
        os.close(out)


def gates(table, rng, _):
    """Sixteen gates on a machine that has something else to do, each fed the whole file."""
    ticket, file = Ticket("kk1:00c0ffee:8:000000000000001b:8:1:200"), noise(rng, 200)
    frames = plain_capture(ticket, file)[0][:-20]
    whole = [frames[at : at + 640] for at in range(0, len(frames), 640)] + [frame(ticket, kind=1)]
    busy = [subprocess.Popen([sys.executable, "-c", "while True: pass"]) for _ in range(2 * (os.cpu_count() or 1))]
    try:
        for number in range(10):
            reader, hears = Reader(ticket, 16), free(16)
            with Kk("recv", ticket.text, *hears) as kk:
                feed = Feed(kk.listens_at(*hears), hears)
                for datagram in whole:
                    for gate in range(16):
                        reader.take(datagram, gate)
                        feed.send(datagram, gate)
                came = kk.end()
            table.case(f"sixteen gates, run {number + 1}", reader.owed(), came)
    finally:
        for process in busy:
            process.kill()
            process.wait()


GROUPS = {it.__name__: it for it in (datagrams, captures, strangers, streams, addresses, signals, gates, calls, memory, requests)}


def main():
    parser = argparse.ArgumentParser(description=__doc__, formatter_class=argparse.RawDescriptionHelpFormatter)
    parser.add_argument("program")
    parser.add_argument("groups", nargs="*", metavar="GROUP", help="any of " + ", ".join(GROUPS))
    parser.add_argument("--count", type=int, default=1_000_000)
    parser.add_argument("--seed", type=int, default=1)
    words = parser.parse_intermixed_args()
    Kk.path, table = os.path.realpath(words.program), Table()
    for name in words.groups or GROUPS:
        print(f"\n{name}: {GROUPS[name].__doc__}\n\n| case | wanted | came |\n|---|---|---|")
        began = time.monotonic()
        try:
            GROUPS[name](table, random.Random(words.seed), words.count)
        except (RuntimeError, OSError, ValueError, IndexError) as error:
            table.case(f"{name} came to its end", None, str(error))
        print(f"\n{name}: {time.monotonic() - began:.0f} s", flush=True)
    print(f"\nattack: {table.good} as wanted, {table.bad} not")
    sys.exit(table.bad != 0)


if __name__ == "__main__":
    main()
