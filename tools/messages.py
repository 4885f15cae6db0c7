"""Messages between clients and the daemon, by docs/FORMATS.md."""
import struct

ANY = 2**32 - 1  # any user or group
NOWHERE = 2**64 - 1  # the place of a reply whose request made no entry
PAYLOAD_LIMIT = 1_048_576
TEXT_LIMIT = 2_097_152

STOP = b"M\x01\x05" + bytes(4)


def frame(kind, body):
    return b"M\x01" + bytes([kind]) + struct.pack(">I", len(body)) + body


def to_seal(payload, cipher=1, mac=1, ttl=0, uid=ANY, gid=ANY):
    """A request to seal the payload, by the default cipher and MAC, for anyone unless given."""
    return frame(1, bytes([cipher, mac]) + struct.pack(">3I", ttl, uid, gid) + payload)


def sealed(status, text=b""):
    return frame(2, bytes([status]) + text)


def to_open(text):
    return frame(3, text)


def opened(status, rule, place=NOWHERE, content=b""):
    return frame(4, bytes([status, rule]) + struct.pack(">Q", place) + content)


def content(payload, uid=ANY, gid=ANY, caller=(7, 7), moment=1000, address=bytes(4)):
    """What a reply shows of a credential under AES-128 with SHA-256, good for five minutes: with
    these restrictions, sealed for that caller at that moment."""
    return b"\x04\x05" + address + struct.pack(">6I", moment, 300, *caller, uid, gid) + payload
