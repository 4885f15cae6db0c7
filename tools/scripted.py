"""A scripted daemon for the client programs, and what they print of its replies."""
import os
import socket
import threading

TOOLS = ["munge", "unmunge", "remunge"]
PATIENCE = 60  # seconds for a run, which takes a few hundredths

# In the form of a credential, which is all that a client program looks at.
CREDENTIAL = b"MUNGE:AwQFAABHfroEKEe6R76pHfnZLFCAoJIpt6jFNRUHo+3TRXJ4P60Nv42y7ibIkm92uYdc3M:"


def received(connection, size):
    """So many bytes of a connection, or fewer where it ends."""
    got = b""
    while len(got) < size and (piece := connection.recv(size - len(got))):
        got += piece
    return got


class ScriptedDaemon:
    """Answers each connection to a socket with the next of its replies, and keeps the requests. In
    the place of a reply, None closes a connection of which nothing was read."""

    def __init__(self, path, replies):
        self.path, self.replies = path, replies
        self.requests = []
        self.listener = socket.socket(socket.AF_UNIX)
        self.listener.bind(str(self.path))
        self.listener.listen()
        self.thread = threading.Thread(target=self.serve)

    def serve(self):
        for reply in self.replies:
            try:
                connection, _ = self.listener.accept()
            except OSError:  # it was shut down
                return
            with connection:
                connection.settimeout(PATIENCE)
                if reply is not None:
                    self.answer(connection, reply)
        self.listener.close()  # a dial too many is refused

    def answer(self, connection, reply):
        head = received(connection, 7)
        size = int.from_bytes(head[3:], "big") if len(head) == 7 else 0
        self.requests.append(head + received(connection, size))
        try:
            connection.sendall(reply)
        except ConnectionError:  # who asked has ended
            pass

    def __enter__(self):
        self.thread.start()
        return self

    def __exit__(self, *_):
        try:
            self.listener.shutdown(socket.SHUT_RDWR)
        except OSError:  # it is closed
            pass
        self.thread.join()
        self.listener.close()
        os.unlink(self.path)


def printed(status, rule, place, *more):
    """What unmunge prints, with the lines of a content where it is shown."""
    lines = [f"STATUS: {status}", f"RULE: {rule}", f"PLACE: {place}", *more]
    return "".join(line + "\n" for line in lines).encode()


def printed_whole(status, rule, place, payload, uid="any", gid="any"):
    """The same of the usual content, with this payload and these restrictions."""
    lines = f"""CIPHER: 4
MAC: 5
ADDRESS: 0.0.0.0
TIME: 1000
TTL: 300
UID: 7
GID: 7
UID_RESTRICTION: {uid}
GID_RESTRICTION: {gid}
LENGTH: {len(payload)}
"""
    return printed(status, rule, place, *lines.split("\n")) + payload


def counted(encoded, decoded, refused):
    """What remunge prints."""
    return f"encoded {encoded} decoded {decoded} failed {refused}\n".encode()
