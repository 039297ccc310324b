"""A relay in front of the server, which can cut links."""
import random
import socket
import threading
import time

from loopback import PATIENCE


class Relay:
    """Hands on what comes, in pieces and with pauses, and cuts all its links when it is told to."""

    def __init__(self, port, pause, seed):
        self.port, self.pause = port, pause
        self.draws, self.dialled, self.links = random.Random(seed), 0, []
        self.lock = threading.Lock()
        self.door = socket.create_server(("127.0.0.1", 0))
        threading.Thread(target=self.accept, daemon=True).start()

    def address(self):
        return self.door.getsockname()[1]

    def accept(self):
        while True:
            try:
                near, _ = self.door.accept()
                far = socket.create_connection(("127.0.0.1", self.port), timeout=PATIENCE)
            except OSError:
                return
            with self.lock:
                self.dialled += 1
                self.links.append((near, far))
            for source, sink in [(near, far), (far, near)]:
                source.settimeout(None)
                source.setsockopt(socket.IPPROTO_TCP, socket.TCP_NODELAY, 1)
                threading.Thread(target=self.hand_on, args=(source, sink), daemon=True).start()

    def hand_on(self, source, sink):
        try:
            while piece := source.recv(65536):
                half = self.draws.randrange(len(piece) + 1)
                sink.sendall(piece[:half])
                time.sleep(self.draws.random() * self.pause)
                sink.sendall(piece[half:])
            sink.shutdown(socket.SHUT_WR)
        except OSError:
            pass

    def cut(self):
        with self.lock:
            links, self.links = self.links, []
        for link in links:
            for end in link:
                try:
                    end.shutdown(socket.SHUT_RDWR)
                except OSError:
                    pass

    def close(self):
        self.door.close()
        self.cut()
