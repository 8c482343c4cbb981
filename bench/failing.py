"""Streams, calls of the system and memory that fail: the groups `streams`, `calls`, `memory` and `requests` of bench/attack.py."""
import contextlib
import os
import resource
import shutil
import signal
import socket
import subprocess
import tempfile

from capture import Ticket, plain_capture
from program import INPUT_FAULT, ONE_BYTE, OUTPUT_FAULT, SEED, Feed, Kk, bound, cannot, free, run
from reader import Reader



# what each command is run with here: the words, what it reads, the file and the report that it owes
def commands():
    """Words, input, file and report of a run of each command in which nothing fails, and addresses to listen at."""
    ticket = Ticket(ONE_BYTE)
    whole = plain_capture(ticket, b"\xa0")[0]
    reader = Reader(ticket)
    reader.take_capture(whole)
    target = free()[0]
    listen = Reader(Ticket(ONE_BYTE[:-1] + "0"))
    listen.ended = ["idle"]
    quiet = listen.owed()[2].split(b"\n")[1]
    return {
        "plan": (["00000001", "3", "0" * 15 + "3", "3", "1"], b"\xa0", ONE_BYTE.encode() + b"\n", b"status 0\n"),
        "pack": ([ONE_BYTE], b"\xa0", whole, b"frames 10\nstatus 0\n"),
        "unpack": ([ONE_BYTE], whole, b"\xa0", reader.owed()[2]),
        "send": ([ONE_BYTE, target, *SEED], b"\xa0", b"", b"datagrams 2 frames 10\nstatus 0\n"),
        "relay": ([ONE_BYTE, target, "127.0.0.1:0", "--idle", "1", *SEED], b"", b"",
                  quiet + b"\nrelayed frames 0 innovative 0 sent 0\nstatus 0\n"),
        "recv": ([ONE_BYTE[:-1] + "0", "127.0.0.1:0", "--idle", "1"], b"", b"", listen.owed()[2]),
    }


def closing(*numbers):
    """Closes these streams in a process that is about to be the program."""
    return lambda: [os.close(it) for it in numbers]


def with_streams(table, name, wanted, command, **how):
    """A case of a command with some streams of its own; where its input isn't told it is the one of `commands`."""
    words, source = commands()[command][:2]
    table.case(f"`{command}` {name}", wanted, run(command, *words, seconds=10, **{"stdin": source, **how}))


def closed_streams(table):
    """Every command with every choice of closed streams."""
    for command, (words, source, file, report) in commands().items():
        for closed in ([0], [1], [2], [0, 1], [0, 2], [1, 2], [0, 1, 2]):
            status = 0
            if 0 in closed and command in ("plan", "pack", "unpack", "send"):
                status, told = 4, INPUT_FAULT
            elif 1 in closed and file:
                status, told = 5, OUTPUT_FAULT
            else:
                status, told = 5 if 2 in closed else 0, report
            wanted = status, file if status in (0, 5) and 1 not in closed else b"", b"" if 2 in closed else told
            came = run(command, *words, stdin=source, before=closing(*closed), seconds=10)
            shut = " and ".join(("input", "output", "error")[it] for it in closed)
            table.case(f"`{command}`, standard {shut} closed", wanted, came)


def received_byte(**streams):
    """What is owed for one byte at one gate, and what `recv` with these streams makes of it."""
    reader, hears = Reader(Ticket(ONE_BYTE)), free()
    whole = plain_capture(reader.ticket, b"\xa0")[0]
    with Kk("recv", ONE_BYTE, *hears, **streams) as kk:
        feed = Feed(kk.listens_at(*hears), hears)
        for datagram in (whole[:-20], whole[-20:]):
            reader.take(datagram)
            feed.send(datagram)
        return reader.owed(), kk.end(10)


def closed_receivers(table):
    """`recv` of a byte while standard streams are closed, whose numbers no socket may take."""
    for closed in ([0], [1], [2], [0, 1], [0, 2], [1, 2], [0, 1, 2]):
        (_, file, report), came = received_byte(before=closing(*closed))
        told = OUTPUT_FAULT if 1 in closed else report
        wanted = 0 if closed == [0] else 5, b"" if 1 in closed else file, b"" if 2 in closed else told
        shut = " and ".join(("input", "output", "error")[it] for it in closed)
        table.case(f"`recv` of one byte, standard {shut} closed", wanted, came)


def full_streams(table):
    """Standard streams that take nothing, or that can't be read."""
    made = commands()
    gone = os.pipe()
    os.close(gone[0])
    with open("/dev/full", "r+b", 0) as full, open("/dev/null", "rb") as null, open(os.devnull, "wb") as write_only:
        folder = os.open(tempfile.gettempdir(), os.O_RDONLY)
        for command in ("plan", "pack", "unpack"):
            for name, stream in (("full", full), ("a pipe whose reader is gone", gone[1]), ("open for reading alone", null)):
                with_streams(table, f"with standard output {name}", (5, b"", OUTPUT_FAULT), command, stdout=stream)
                file = made[command][2]
                with_streams(table, f"with standard error {name}", (5, file, b""), command, stderr=stream)
        for command in ("send", "relay", "recv"):
            with_streams(table, "with standard error full", (5, b"", b""), command, stderr=full)
        table.case("`recv` of one byte with standard output full", (5, b"", OUTPUT_FAULT), received_byte(stdout=full)[1])
        for command in ("plan", "pack", "unpack", "send"):
            for name, stream in (("a folder", folder), ("open for writing alone", write_only)):
                with_streams(table, f"with standard input {name}", (4, b"", INPUT_FAULT), command, stdin=stream)
        zeros = Reader(Ticket(ONE_BYTE), most=1000)
        zeros.take_capture(bytes(20_000))
        table.case("`unpack --most 1000 < /dev/full`", zeros.owed(), run("unpack", ONE_BYTE, "--most", "1000", stdin=full))
        # 98,305 generations of three bits are 36,865 bytes
        with_streams(table, "< /dev/full", (2, b"", b"ticket too many generations 16387\nstatus 2\n"), "plan", stdin=full)
        for command in ("pack", "send"):
            with_streams(table, "< /dev/full", (9, b"", b"length more\nstatus 9\n"), command, stdin=full)
        os.close(folder)
    os.close(gone[1])


def unready_streams(table):
    """Pipes that are set not to wait and aren't ready, and one whose reader goes away in the middle."""
    out, into = os.pipe()
    for it in (out, into):
        os.set_blocking(it, False)
    for command in ("plan", "pack", "unpack", "send"):
        with_streams(table, "from an empty pipe that doesn't wait", (4, b"", INPUT_FAULT), command, stdin=out)
    with contextlib.suppress(BlockingIOError):
        while True:
            os.write(into, bytes(65_536))
    for command in ("plan", "pack", "unpack"):
        with_streams(table, "into a full pipe that doesn't wait", (5, b"", OUTPUT_FAULT), command, stdout=into)
    os.close(out)
    os.close(into)
    out, into = os.pipe()
    with Kk("pack", "kk1:00c0ffee:31:0000000000000009:24:16:1000000", stdin=bytes(1_000_000), stdout=into) as kk:
        os.close(into)
        os.read(out, 100)
        os.close(out)
        table.case("`pack` into a pipe whose reader goes away", (5, b"", OUTPUT_FAULT), kk.end())


def limited_files(table):
    """A limit on the size of files, with the signal that tells of it, and without."""
    cases = ("the signal ends it", signal.SIG_DFL, -signal.SIGXFSZ), ("where the signal is ignored", signal.SIG_IGN, 5)
    for name, left, status in cases:
        def before():
            signal.signal(signal.SIGXFSZ, left)
            resource.setrlimit(resource.RLIMIT_FSIZE, (100, 100))
            resource.setrlimit(resource.RLIMIT_CORE, (0, 0))
        wanted = status, commands()["pack"][2][:100], b"" if status < 0 else OUTPUT_FAULT
        with_streams(table, f"with `ulimit -f`: {name}", wanted, "pack", before=before)


def streams(table, *_):
    """Standard streams."""
    closed_streams(table)
    closed_receivers(table)
    full_streams(table)
    unready_streams(table)
    limited_files(table)


def inject(call, error, when):
    """The words that run a program under strace, which refuses this call of the system."""
    return ["strace", "-f", "-qq", "-o", "/dev/null", "-e", f"trace={call}", "-e", f"inject={call}:error={error}:when={when}"]


def calls(table, rng, _):
    """Each call of the system is refused in turn."""
    if not shutil.which("strace"):
        print("| there is no strace: left out | | |")
        return
    refused_reads_and_writes(table)
    refused_sends(table, rng)
    refused_receives(table, rng)
    refused_at_the_start(table)


def reads_of_input(command, words, source):
    """Which of the reads of a run are of standard input: the loader may read before."""
    with tempfile.NamedTemporaryFile("r", encoding="utf-8", errors="replace") as told:
        run(command, *words, stdin=source, under=["strace", "-f", "-qq", "-o", told.name, "-e", "trace=read"])
        reads = [line.split("read(", 1)[1] for line in told if "read(" in line]
    return [number for number, read in enumerate(reads, 1) if read.startswith("0,")]


def refused_reads_and_writes(table):
    """Reads of standard input, and writes of standard output and standard error."""
    made = commands()
    for command in ("plan", "pack", "unpack"):
        words, source, file, report = made[command]
        places = reads_of_input(command, words, source)
        for number in (1, 2):
            place = places[number - 1] if number <= len(places) else places[-1] + 1
            came = run(command, *words, stdin=source, under=inject("read", "EIO", place))
            # END stands before the second read of `unpack`, which reads a file in blocks
            wanted = (0, file, report) if (command, number) == ("unpack", 2) else (4, b"", INPUT_FAULT)
            table.case(f"`{command}`, read {number} refused", wanted, came)
        for number, wanted in ((1, (5, b"", OUTPUT_FAULT)), (2, (5, file, b""))):
            for error in ("ENOSPC", "EIO", "EPIPE", "EAGAIN"):
                came = run(command, *words, stdin=source, under=inject("write", error, number))
                table.case(f"`{command}`, write {number} refused with {error}", wanted, came)


def refused_sends(table, rng):
    """Datagrams that the system doesn't send."""
    ticket, file = Ticket(ONE_BYTE), b"\xa0"
    whole = plain_capture(ticket, file)[0]
    for error, when, sent in (("EPERM", "1", 0), ("EPERM", "4", 3), ("ENETUNREACH", "10", 9), ("ECONNREFUSED", "3", 2),
                              ("ENOBUFS", "2..9", 10), ("EINTR", "2..9", 10), ("EAGAIN", "2..9", 10), ("ENOMEM", "2..9", 10)):
        target, address = bound(seconds=0.2)
        came = run("send", ONE_BYTE, address, *SEED, "--pack", "1", stdin=file, under=inject("sendto", error, when))
        got = b""
        with contextlib.suppress(TimeoutError, socket.timeout):
            while True:
                got += target.recv(700)
        target.close()
        report = b"outlet fault\nstatus 7\n" if sent < 10 else b"datagrams 10 frames 10\nstatus 0\n"
        wanted = 7 if sent < 10 else 0, b"", report, whole[: 20 * sent]
        table.case(f"`send`, datagram {when} refused with {error}", wanted, (*came, got))


def refused_receives(table, rng):
    """Datagrams that the system doesn't give."""
    ticket = Ticket(ONE_BYTE)
    whole = plain_capture(ticket, b"\xa0")[0]
    cases = ("EIO", 3, "fault"), ("ENOMEM", 3, "fault"), ("EIO", 4, "fault"), ("EINTR", "2..9", "end"), ("EAGAIN", "2..9", "end")
    for error, when, ended in cases:
        for command in ("recv", "relay"):
            reader, hears = Reader(ticket), free()
            words = [*free(), *hears, *SEED] if command == "relay" else hears
            with Kk(command, ONE_BYTE, *words, "--idle", "20", under=inject("recvfrom", error, when)) as kk:
                feed = Feed(kk.listens_at(*hears), hears)
                for at in (0, 60, 120, 180):
                    with contextlib.suppress(RuntimeError, ConnectionError):
                        if at // 60 + 1 == when:
                            reader.ended[0] = "fault"
                        reader.take(whole[at : at + 60])
                        feed.send(whole[at : at + 60])
                came = kk.end()
            wanted = reader.owed(ended == "fault")
            if command == "relay":
                told = wanted[2].split(b"\n")[1] + b"\nrelayed frames 9 innovative 9 sent 9\nstatus 0\n"
                wanted = (4, b"", INPUT_FAULT) if ended == "fault" else (0, b"", told)
            table.case(f"`{command}`, receive {when} refused with {error}", wanted, came)


# The program holds so many sockets that it doesn't use while it opens its own.
PLACEHOLDERS = 3


def refused_at_the_start(table):
    """Sockets and threads that the system doesn't give."""
    hears, target = free(2), free()
    quiet = Reader(Ticket(ONE_BYTE), 2)
    quiet.ended = ["idle", "idle"]
    for call, error in (("socket", "EMFILE"), ("bind", "EACCES"), ("setsockopt", "ENOPROTOOPT")):
        came = run("recv", ONE_BYTE, *hears, "--idle", "1", under=inject(call, error, 1))
        table.case(f"`recv` at two addresses, {call} of a placeholder refused", quiet.owed(), came)
        for number in (1, 2):
            came = run("recv", ONE_BYTE, *hears, "--idle", "1", under=inject(call, error, PLACEHOLDERS + number))
            table.case(f"`recv` at two addresses, {call} {number} refused", cannot(hears[number - 1]), came)
    for call, error in (("socket", "EMFILE"), ("bind", "EADDRINUSE")):
        came = run("send", ONE_BYTE, *target, *SEED, stdin=b"\xa0", under=inject(call, error, PLACEHOLDERS + 1))
        table.case(f"`send`, {call} refused", cannot(target[0]), came)
    for number in ("1", "2", "1+"):
        came = run("recv", ONE_BYTE, *hears, "--idle", "1", under=inject("clone3,clone", "EAGAIN", number))
        table.case(f"`recv` at two addresses, thread {number} refused", quiet.owed(), came)
    without_threads(table)


def without_threads(table):
    """`recv` at two addresses, of which each gets a part of the file, where the system gives no thread."""
    ticket, hears = Ticket(ONE_BYTE), free(2)
    whole, reader = plain_capture(ticket, b"\xa0")[0], Reader(ticket, 2)
    with Kk("recv", ONE_BYTE, *hears, under=inject("clone3,clone", "EAGAIN", "1+")) as kk:
        feed = Feed(kk.listens_at(*hears), hears)
        for gate, datagram in ((1, whole[60:180]), (0, whole[:60]), (1, whole[180:]), (0, whole[180:])):
            reader.take(datagram, gate)
            feed.send(datagram, gate)
        table.case("a file by two gates, all threads refused", reader.owed(), kk.end())


LARGEST = "kk1:00c0ffee:2:0000000000000003:1:1:4096"


def memory(table, rng, _):
    """Limits of the address space, from what the program is itself to enough: it ends with 8, or as if there were none."""
    empty = plain_capture(Ticket(LARGEST), bytes(4096))[0]
    runs = {
        "unpack": (["unpack", LARGEST], empty, 0),
        "pack": (["pack", LARGEST], bytes(4096), 0),
        "plan": (["plan", "00c0ffee", "2", "0" * 15 + "3", "1", "1"], bytes(4096), 0),
        "send": (["send", LARGEST, *free(), *SEED], bytes(4096), 0),
        "relay": (["relay", LARGEST, *free(), "127.0.0.1:0", "--idle", "1", *SEED], b"", 0),
        "recv": (["recv", LARGEST, *["127.0.0.1:0"] * 16, "--idle", "1"], b"", 3),
    }
    for name, (words, source, usual) in runs.items():
        found, others = {}, []
        for limit in [*range(2_048, 8_192, 64), *range(8_192, 131_072, 4_096), *range(131_072, 1_200_000, 40_960)]:
            came = run(*words, stdin=source, before=limited_memory(limit << 10))
            how = "not loaded" if b"shared librar" in came[2] else came[0]
            found[how] = found.get(how, 0) + 1
            if how == 8 and came[1:] not in ((b"", b"memory\nstatus 8\n"), (b"", b"")) or how not in ("not loaded", 8, usual):
                others.append((limit, came[0], came[2][-60:]))
        table.case(f"`{name}` with 2 to 1,200 MiB: ends otherwise", [], others[:3], f"by status {found}")
    small_stacks(table)


def small_stacks(table):
    """Every command with a stack of 512 KiB, its threads too."""
    size = 512 << 10
    def before():
        resource.setrlimit(resource.RLIMIT_STACK, (size, size))
    for command, (words, source, file, report) in commands().items():
        table.case(f"`{command}` with a stack of 512 KiB", (0, file, report), run(command, *words, stdin=source, before=before))
    table.case("`recv` of one byte with a stack of 512 KiB", *received_byte(before=before))


def limited_memory(size):
    """Limits the address space of a process that is about to be the program."""
    return lambda: resource.setrlimit(resource.RLIMIT_AS, (size, size))


def requests(table, rng, _):
    """Each request of the program for memory is refused in turn: it ends with 8, or as if none were."""
    if not shutil.which("cc"):
        print("| there is no cc: left out | | |")
        return
    with tempfile.TemporaryDirectory() as folder:
        refuse = os.path.join(folder, "refuse.so")
        source = os.path.join(os.path.dirname(os.path.realpath(__file__)), "refuse.c")
        subprocess.run(["cc", "-O2", "-shared", "-fPIC", "-o", refuse, source], check=True)
        for command in commands():
            refused_requests(table, command, refuse)


def refused_requests(table, command, refuse):
    """Refuses the requests of a command in turn, until forty in a row change nothing."""
    words, source, file, report = commands()[command]
    found, others, number, unchanged = {}, [], 0, 0
    while unchanged < 40 and number < 1_000:
        number += 1
        under = ["env", f"LD_PRELOAD={refuse}", f"REFUSE={number}"]
        came = run(command, *words, stdin=source, under=under, seconds=10)
        is_done = came == (0, file, report)
        unchanged = unchanged + 1 if is_done else 0
        if not is_done and came not in ((8, b"", b"memory\nstatus 8\n"), (8, b"", b"")):
            others.append((number, came[0], came[2][-40:]))
        found[came[0]] = found.get(came[0], 0) + 1
    told = f"by status {found}, the last {unchanged} without a change"
    table.case(f"`{command}`, each request refused: ends otherwise", [], others[:3] and [len(others), *others[:3]], told)
