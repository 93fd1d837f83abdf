"""What runs over TCP share: a target that `serve` runs, the program's other words, and an initiator of the link.

Every wait has an end, and the target is killed whatever comes.
"""
import os
import signal
import socket
import struct
import subprocess
import sys
import tempfile
import time

WAIT = 20  # seconds for one call
WHOLE = 100  # seconds for an example
BLOCK = 512
BLOCKS = 2048
STATUSES = {0x00: "GOOD", 0x02: "CHECK CONDITION", 0x18: "RESERVATION CONFLICT", 0x40: "TASK ABORTED"}


def built():
    """The program that the first word names, or the one that was built here."""
    here = os.path.dirname(os.path.abspath(__file__))
    program = os.path.abspath(sys.argv[1] if len(sys.argv) > 1 else here + "/../crates/prtool/out/prtool")
    if not os.access(program, os.X_OK):
        sys.exit(f"there is no program {program}: ./prtool show </dev/null builds it")
    return program


class Target:
    """A target on a free port of this machine, with files in a folder of its own."""

    def __init__(self, *words):
        self.words = words

    def __enter__(self):
        self.folder = tempfile.TemporaryDirectory()
        self.blocks = self.path("blocks")
        with open(self.blocks, "wb") as file:
            file.write(bytes(BLOCKS * BLOCK))
        self.process = None
        try:
            self.start("127.0.0.1:0")
        except BaseException:
            self.__exit__()
            raise
        return self

    def __exit__(self, *_):
        self.kill()
        self.folder.cleanup()

    def start(self, address, stdout=subprocess.PIPE, **options):
        with open(self.path("told"), "wb") as told:
            self.process = subprocess.Popen(
                [built(), "serve", address, self.path("registrations"), self.blocks, *self.words],
                stdin=subprocess.DEVNULL, stdout=stdout, stderr=told, **options)
        self.address = self.listening()

    def kill(self):
        if self.process:
            self.process.kill()
            self.process.communicate()
            self.process = None

    def path(self, name):
        return os.path.join(self.folder.name, name)

    def told(self):
        with open(self.path("told")) as told:
            return told.read()

    def listening(self):
        """The address that the target tells on standard error, once it listens."""
        last = time.monotonic() + WAIT
        while time.monotonic() < last and self.process.poll() is None:
            for line in self.told().splitlines(keepends=True):
                if line.startswith("prtool: listening on ") and line.endswith("\n"):
                    return line.split()[-1]
            time.sleep(0.01)
        raise RuntimeError(f"serve doesn't listen: {self.told()}")

    def ask(self, words):
        """What the program prints for these words and the target's address, and how it ends."""
        run = subprocess.run([built(), *words.split(), self.address], stdin=subprocess.DEVNULL,
                             capture_output=True, text=True, timeout=WAIT)
        text = f"$ prtool {words} ADDRESS\n" + (run.stdout + run.stderr).replace(self.address, "ADDRESS")
        return text if run.returncode == 0 else f"{text}status {run.returncode}\n"

    def ended(self):
        """What the target prints at its end, and how it ends."""
        out, _ = self.process.communicate(timeout=WAIT)
        return f"{out.decode()}status {self.process.returncode}\n"

    def content(self):
        with open(self.blocks, "rb") as file:
            return file.read()


class Initiator:
    """An initiator that has logged in by a name, and has taken the unit attentions that waited for it."""

    def __init__(self, address, name):
        host, port = address.rsplit(":", 1)
        self.socket = socket.create_connection((host, int(port)), timeout=WAIT)
        self.socket.setsockopt(socket.IPPROTO_TCP, socket.TCP_NODELAY, 1)
        self.send(0x01, struct.pack(">BBHQ", 1, 0, 1, name))
        if self.receive() != (0x81, bytes(4)):
            raise RuntimeError("the login is refused")
        while self.command(bytes(6)).startswith("CHECK CONDITION 6/"):
            pass

    def close(self):
        """Logs out, and ends the connection once that is answered."""
        self.send(0x03, b"")
        if self.receive() != (0x83, b""):
            raise RuntimeError("the logout isn't answered")
        self.socket.close()

    def send(self, kind, body):
        self.socket.sendall(struct.pack(">IBBHI", 8 + len(body), kind, 0, 0, 0) + body)

    def receive(self):
        """The kind and the body of the next frame."""
        length, = struct.unpack(">I", self.taken(4))
        frame = self.taken(length)
        return frame[0], frame[8:]

    def taken(self, count):
        taken = b""
        while len(taken) < count:
            piece = self.socket.recv(count - len(taken))
            if not piece:
                raise RuntimeError("the target ended the connection")
            taken += piece
        return taken

    def ask(self, cdb, sent=b""):
        self.send(0x02, bytes([len(cdb), 0, 0, 0]) + cdb.ljust(16, b"\0") + sent)

    def answer(self):
        """The status of the next answer in words, with its sense where there is any."""
        kind, body = self.receive()
        if kind != 0x82:
            raise RuntimeError(f"the target answers with a frame of kind {kind:02X}")
        status = STATUSES.get(body[0], f"{body[0]:02X}h")
        return f"{status} {body[6]:X}/{body[16]:02X}/{body[17]:02X}" if body[0] == 0x02 else status

    def command(self, cdb, sent=b""):
        self.ask(cdb, sent)
        return self.answer()


def run(example):
    """Runs an example, which gives its text, and ends with status 0 where it came to its end."""
    signal.signal(signal.SIGTERM, lambda *_: sys.exit(1))
    signal.signal(signal.SIGALRM, lambda *_: sys.exit("the example takes too long"))
    signal.alarm(WHOLE)
    sys.stdout.write(example())
