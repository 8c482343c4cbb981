"""The built program under attack, the sockets by which it is fed, and the table of what came."""
import socket
import subprocess
import tempfile
import time

ONE_BYTE = "kk1:00000001:3:0000000000000003:3:1:1"
SEED = ["--seed", "0" * 64]
RUN_SECONDS = 60
# what a socket's buffer may hold before the sender waits, of the 212,992 bytes that Linux gives it
BUFFER_BYTES = 100_000
INPUT_FAULT, OUTPUT_FAULT = b"input fault\nstatus 4\n", b"status 5\n"


class Table:
    """The cases of a run, each with what was wanted and what came."""

    def __init__(self):
        self.bad = self.good = 0

    def case(self, name, wanted, came, note=""):
        """Prints a line, and counts it."""
        right = wanted == came
        self.good, self.bad = self.good + right, self.bad + (not right)
        told = "as wanted" if right else f"NOT: {shown(came)}"
        print(f"| {name} | {shown(wanted)} | {told}{'; ' * bool(note)}{note} |", flush=True)


def shown(value):
    """A value in a few words."""
    if isinstance(value, tuple):
        return ", ".join(shown(it) for it in value)
    if isinstance(value, bytes):
        text = value.decode("utf-8", "replace").replace("\n", " / ").strip(" /")
        return f"`{text}`" if 0 < len(text) < 70 and text.isascii() and text.isprintable() else f"{len(value)} bytes"
    return str(value)


class Kk:
    """The program under attack, started with these words."""

    path = None

    def __init__(self, *words, before=None, under=(), **streams):
        self.kept = [tempfile.TemporaryFile() for _ in range(2)]
        how = {"stdin": subprocess.DEVNULL, "stdout": self.kept[0], "stderr": self.kept[1], **streams}
        if isinstance(how["stdin"], bytes):
            source = tempfile.TemporaryFile()
            source.write(how["stdin"])
            source.seek(0)
            how["stdin"] = source
        self.process = subprocess.Popen([*under, self.path, *words], preexec_fn=before, **how)

    def __enter__(self):
        return self

    def __exit__(self, *_):
        if self.process.poll() is None:
            self.process.kill()
            self.process.wait()

    def listens_at(self, *addresses):
        """Waits until it listens at these addresses."""
        until = time.monotonic() + RUN_SECONDS
        while not all(it in sockets() for it in addresses):
            if self.process.poll() is not None or time.monotonic() > until:
                raise RuntimeError(f"it doesn't listen at {addresses}")
            time.sleep(0.01)
        return self

    def memory(self):
        """The resident memory, in KiB."""
        with open(f"/proc/{self.process.pid}/status", encoding="ascii") as told:
            found = [int(line.split()[1]) for line in told if line.startswith("VmRSS")]
        return found[0] if found else 0

    def end(self, seconds=RUN_SECONDS):
        """Waits until it has ended: its status, or that it hangs, and what it wrote."""
        try:
            status = self.process.wait(seconds)
        except subprocess.TimeoutExpired:
            self.process.kill()
            self.process.wait()
            status = "hangs"
        texts = []
        for stream in self.kept:
            stream.seek(0)
            texts.append(stream.read())
        return (status, *texts)


def run(*words, seconds=RUN_SECONDS, **how):
    """The status of a run, what it wrote, and its report."""
    with Kk(*words, **how) as kk:
        return kk.end(seconds)


def cannot(address):
    """What is owed where an address can't be opened."""
    return 12, b"", f"cannot open {address}\n".encode()


def sockets():
    """The UDP sockets of this machine: for each address what its buffer holds, and how many datagrams it had no room for."""
    found = {}
    for path in ("/proc/net/udp", "/proc/net/udp6"):
        with open(path, encoding="ascii") as table:
            for line in list(table)[1:]:
                part = line.split()
                host, port = part[1].split(":")
                host = {"0100007F": "127.0.0.1", "0" * 24 + "01000000": "[::1]"}.get(host, host)
                found[f"{host}:{int(port, 16)}"] = int(part[4].split(":")[1], 16), int(part[-1])
    return found


def bound(host="127.0.0.1", seconds=RUN_SECONDS):
    """A socket at a free port, and its address in words."""
    made = socket.socket(socket.AF_INET6 if ":" in host else socket.AF_INET, socket.SOCK_DGRAM)
    made.bind((host, 0))
    made.settimeout(seconds)
    return made, f"{f'[{host}]' if ':' in host else host}:{made.getsockname()[1]}"


def free(count=1, host="127.0.0.1"):
    """Addresses that nobody listens at."""
    held = [bound(host) for _ in range(count)]
    for made, _ in held:
        made.close()
    return [address for _, address in held]


class Feed:
    """Sends datagrams to gates, and waits where a socket's buffer would be full, so that none is lost."""

    def __init__(self, kk, addresses):
        self.kk, self.addresses, self.waiting = kk, addresses, 0
        hosts = [it.rsplit(":", 1) for it in addresses]
        self.places = [(host.strip("[]"), int(port)) for host, port in hosts]
        self.socket = socket.socket(socket.AF_INET6 if "[" in addresses[0] else socket.AF_INET, socket.SOCK_DGRAM)

    def send(self, datagram, gate=0):
        """Sends a datagram to a gate when there is room."""
        takes = 1280 + 2 * len(datagram)
        if self.waiting and self.waiting + takes > BUFFER_BYTES:
            self.settle()
        self.socket.sendto(datagram, self.places[gate])
        self.waiting += takes

    def settle(self):
        """Waits until the gates have taken all."""
        until = time.monotonic() + RUN_SECONDS
        while any(sockets().get(it, (0, 0))[0] for it in self.addresses):
            if time.monotonic() > until or self.kk.process.poll() is not None:
                raise RuntimeError("the gates take nothing more")
        self.waiting = 0

    def lost(self):
        """How many datagrams the sockets had no room for."""
        self.settle()
        return sum(sockets()[it][1] for it in self.addresses)


def frame(ticket, kind=0, generation=0, row=0, session=None, version=1, magic=b"KK"):
    """20 bytes that are a frame, but for what is told."""
    session = ticket.session if session is None else session
    body = generation.to_bytes(4, "big") + row.to_bytes(8, "big")
    return magic + bytes([version, kind]) + session.to_bytes(4, "big") + body


def noise(rng, count):
    """So many random bytes."""
    return rng.getrandbits(8 * count).to_bytes(count, "big") if count else b""
