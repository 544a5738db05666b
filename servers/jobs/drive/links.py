"""Links between a worker and the database that are cut and mended."""
import contextlib
import os
import selectors
import socket
import subprocess
import threading
import time


class Link:
    def cut_for(self, seconds):
        self.cut()
        time.sleep(seconds)
        self.mend()


class Wire(Link):
    """A way to a port that is cut and mended: while it is cut nothing goes through, and nobody is told."""

    def __init__(self, port, host="127.0.0.1"):
        self.target, self.whole = port, threading.Event()
        self.whole.set()
        self.listener = socket.create_server((host, 0))
        self.address = "%s:%d" % self.listener.getsockname()
        # How much it still carries before it is cut.
        self.left = float("inf")
        threading.Thread(target=self.accept, daemon=True).start()

    def accept(self):
        while True:
            client, _ = self.listener.accept()
            self.whole.wait()
            threading.Thread(target=self.carry, args=[client], daemon=True).start()

    def carry(self, client):
        with contextlib.suppress(OSError), client, socket.create_connection(("127.0.0.1", self.target)) as server:
            with selectors.DefaultSelector() as selector:
                selector.register(client, selectors.EVENT_READ, server)
                selector.register(server, selectors.EVENT_READ, client)
                while True:
                    for key, _ in selector.select():
                        self.whole.wait()
                        piece = key.fileobj.recv(1 << 16)
                        if not piece:
                            return
                        key.data.sendall(piece)
                        self.left -= len(piece)
                        if self.left < 0:
                            self.whole.clear()

    def cut(self):
        self.whole.clear()

    def mend(self):
        self.left = float("inf")
        self.whole.set()

    def url(self, url):
        return url.replace(f"127.0.0.1:{self.target}/", f"{self.address}/")


class Apart(Link):
    """A network namespace, whose link to this one can be cut: packets are lost then, as between two hosts."""

    def __init__(self, number=0):
        self.name = f"jobs-{os.getpid()}-{number}"
        self.link = f"jobs{os.getpid()}-{number}"
        # Four addresses of this process's own for each, so that drivers beside it have others.
        net = f"10.{64 + os.getpid() // 251 % 128}.{os.getpid() % 251}"
        self.host, self.guest = f"{net}.{4 * number + 1}", f"{net}.{4 * number + 2}"

    def __enter__(self):
        self.ip("netns", "add", self.name)
        self.ip("link", "add", self.link, "type", "veth", "peer", "name", "guest", "netns", self.name)
        self.ip("addr", "add", f"{self.host}/30", "dev", self.link)
        self.ip("link", "set", self.link, "up")
        self.ip("-n", self.name, "addr", "add", f"{self.guest}/30", "dev", "guest")
        self.ip("-n", self.name, "link", "set", "guest", "up")
        return self

    def __exit__(self, *_):
        self.ip("netns", "del", self.name)

    def ip(self, *words):
        subprocess.run(["ip", *words], check=True)

    def cut(self):
        # A frame for an address that nobody has is lost. A link that is down would be noticed.
        self.neighbours("replace", "lladdr", "02:00:00:00:00:99", "nud", "permanent")

    def mend(self):
        self.neighbours("del")

    def neighbours(self, verb, *more):
        self.ip("neigh", verb, self.guest, "dev", self.link, *more)
        self.ip("-n", self.name, "neigh", verb, self.host, "dev", "guest", *more)

    @property
    def within(self):
        return ["ip", "netns", "exec", self.name]
