"""A client of the Redis protocol for the drivers of both servers."""
import socket

# What a socket says when its server is gone.
GONE = (OSError, EOFError)


class Refusal(str):
    """An error of the protocol."""


def packed(*words):
    """A request of bytes, texts or numbers."""
    parts = [it if isinstance(it, bytes) else str(it).encode() for it in words]
    return b"*%d\r\n" % len(parts) + b"".join(b"$%d\r\n%s\r\n" % (len(it), it) for it in parts)


class Client:
    """Bulk strings are bytes, where they aren't asked for as texts."""

    def __init__(self, address, timeout=600, is_text=False):
        host, port = address.rsplit(":", 1)
        self.is_text = is_text
        self.socket = socket.create_connection((host, int(port)), timeout=timeout)
        self.socket.setsockopt(socket.IPPROTO_TCP, socket.TCP_NODELAY, 1)
        self.file = self.socket.makefile("rb", buffering=1 << 20)

    def call(self, *words):
        return self.calls([words])[0]

    def calls(self, requests):
        self.socket.sendall(b"".join(packed(*it) for it in requests))
        return [self.reply() for _ in requests]

    def reply(self):
        line = self.file.readline()
        if not line.endswith(b"\r\n"):
            raise EOFError("the server closed the connection")
        kind, rest = line[:1], line[1:-2]
        if kind == b":":
            return int(rest)
        if kind == b"+":
            return rest.decode(errors="replace")
        if kind == b"-":
            return Refusal(rest.decode(errors="replace"))
        if kind == b"*":
            return [self.reply() for _ in range(int(rest))]
        if rest == b"-1":
            return None
        bulk = self.file.read(int(rest) + 2)[:-2]
        return bulk.decode() if self.is_text else bulk

    def close(self):
        self.socket.close()
