"""`munged serve` over real sockets: its option file, the daemon as a process, and its clients. All
files are those of the working folder, so that the paths of sockets are short."""
import json
import select
import socket
import struct
import subprocess
from pathlib import Path

from cases import Wrong
from sources import TOP

BUILT = TOP / "crates/munged_run/out/munged_run"
PATIENCE = 30  # seconds for a reply, or for a run that ends by itself

CONFIG = "munged.toml"
ANN, ROOT = "ann.socket", "root.socket"
CALLERS = {ANN: (7, 8), ROOT: (0, 0)}  # the UID and the GID of who connects to each

MEBIBYTE = 1_048_576


def write_options(sockets=(ANN, ROOT), **options):
    """Writes the option file, with these sockets, of which that of root has control."""
    options = {"key": "key", "workers": 4, **options}
    lines = [f"{key} = {json.dumps(value)}\n" for key, value in options.items()]
    for path in sockets:
        uid, gid = CALLERS.get(path, (0, 0))
        lines.append(f'[[socket]]\npath = "{path}"\nuid = {uid}\ngid = {gid}\n')
        if path == ROOT:
            lines.append("control = true\n")
    Path(CONFIG).write_text("".join(lines))


def socket_files():
    return sorted(path.name for path in Path().iterdir() if path.is_socket())


def wants_ran(case, ran, status, out=b"", said=None):
    """A run of munged has ended with this status, these bytes and this line."""
    case.wants("status", status, ran.returncode)
    case.wants("on standard output", out, ran.stdout)
    line = f"munged: {said}\n".encode() if said else b""
    case.wants("on standard error", line, ran.stderr)


def totals_of(rules, kept=None):
    """The line of totals of a daemon whose replies had each rule so often. All that was accepted is
    kept, unless the number is given."""
    accepted, replayed, expired = (rules[rule] for rule in (0, 14, 13))
    kept = accepted if kept is None else kept
    totals = f"presented {accepted + replayed + expired} accepted {accepted}"
    return totals + f" replayed {replayed} expired {expired} kept {kept}\n"


# Clients.


def dial(path):
    """A connection, no call on which waits longer than PATIENCE."""
    client = socket.socket(socket.AF_UNIX)
    for option in (socket.SO_RCVTIMEO, socket.SO_SNDTIMEO):
        client.setsockopt(socket.SOL_SOCKET, option, struct.pack("ll", PATIENCE, 0))
    client.connect(path)
    return client


def rest_of(client):
    """All that comes until the connection ends."""
    got = b""
    while piece := client.recv(MEBIBYTE):
        got += piece
    return got


# A daemon.


class Serving:
    """`munged serve` by the option file, which is ready in the block, and has ended behind it."""

    def __init__(self, program):
        self.program = program

    def __enter__(self):
        words = [self.program, "serve", CONFIG]
        pipe = subprocess.PIPE
        self.process = subprocess.Popen(
            words, stdin=subprocess.DEVNULL, stdout=pipe, stderr=pipe, bufsize=0
        )
        if (said := self.first_line()) != b"ready\n":
            self.process.kill()
            said += self.process.stderr.read()
            self.__exit__()
            raise Wrong(f"a daemon is not ready, and says {said!r}")
        return self

    def first_line(self):
        """The bytes up to the first line feed, or those that come in time."""
        out, got = self.process.stdout, b""
        while not got.endswith(b"\n") and select.select([out], [], [], PATIENCE)[0]:
            if not (piece := out.read(1)):
                break
            got += piece
        return got

    def ended(self):
        """How it ended, with what it said behind its first line."""
        out, err = self.process.communicate(timeout=PATIENCE)
        return subprocess.CompletedProcess([], self.process.returncode, out, err)

    def __exit__(self, *_):
        if self.process.poll() is None:
            self.process.kill()
        self.process.wait()
        self.process.stdout.close()
        self.process.stderr.close()
