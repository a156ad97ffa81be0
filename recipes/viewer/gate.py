"""Who comes in: one loop holds each connection until the first line of its head shows the secret."""
import resource
import selectors
import signal
import socket
import time
from typing import Callable, Dict, Optional, Tuple

# How long a connection may wait before it has shown the secret, with how long a head, and how many may at once: the
# one that has waited longest makes room for the next.
SECONDS, MOST_HEAD, MOST_WAITING = 5, 1 << 14, 512
REFUSED = b'the address has no right secret\n'
REFUSAL = (b'HTTP/1.1 403 Forbidden\r\nContent-Type: text/plain; charset=utf-8\r\nConnection: close\r\n'
           b'Content-Length: %d\r\n\r\n' % len(REFUSED)) + REFUSED


class Gate:
    def __init__(self, port: int, knows: Callable[[bytes], bool],
                 enter: Callable[[socket.socket, bytes], None]) -> None:
        """`knows` says whether the first part of a path is a secret; `enter` takes a connection that has shown it, and
        what was read of it."""
        self.knows, self.enter = knows, enter
        self.listener = socket.create_server(('127.0.0.1', port), backlog=1024)
        self.listener.setblocking(False)
        self.port = self.listener.getsockname()[1]
        # each with its time and what it said so far, the oldest first
        self.waiting: Dict[socket.socket, Tuple[float, bytes]] = {}
        self.most = min(MOST_WAITING, resource.getrlimit(resource.RLIMIT_NOFILE)[0] // 2)
        self.ways = selectors.DefaultSelector()
        self.ways.register(self.listener, selectors.EVENT_READ)

    def serve(self) -> None:
        # a signal that comes just before a wait ends the wait too
        woken, waker = socket.socketpair()
        with woken, waker:
            woken.setblocking(False)
            waker.setblocking(False)
            self.ways.register(woken, selectors.EVENT_READ)
            signal.set_wakeup_fd(waker.fileno(), warn_on_full_buffer=False)
            try:
                while True:
                    self.turn(woken)
            finally:
                signal.set_wakeup_fd(-1)

    def turn(self, woken: socket.socket) -> None:
        oldest = next(iter(self.waiting.values()), None)
        for key, _ in self.ways.select(oldest and max(0, oldest[0] - time.monotonic())):
            if key.fileobj is woken:
                woken.recv(MOST_HEAD)
            elif key.fileobj is self.listener:
                self.accept()
            elif isinstance(key.fileobj, socket.socket) and key.fileobj in self.waiting:
                self.hear(key.fileobj)
        now = time.monotonic()
        while self.waiting and next(iter(self.waiting.values()))[0] <= now:
            self.drop()

    def close(self) -> None:
        while self.waiting:
            self.drop()
        self.ways.close()
        self.listener.close()

    def accept(self) -> None:
        for _ in range(self.most):
            try:
                connection, _ = self.listener.accept()
            except BlockingIOError:
                return
            except OSError:
                # no more files may be open
                if self.waiting:
                    self.drop()
                else:
                    time.sleep(0.05)
                return
            if len(self.waiting) >= self.most:
                self.drop()
            connection.setblocking(False)
            self.waiting[connection] = time.monotonic() + SECONDS, b''
            self.ways.register(connection, selectors.EVENT_READ)
            self.hear(connection)

    def hear(self, connection: socket.socket) -> None:
        """Reads on. What shows the secret comes in, what has said all and hasn't is refused."""
        until, head = self.waiting[connection]
        try:
            some = connection.recv(MOST_HEAD)
        except BlockingIOError:
            return
        except OSError:
            some = b''
        head += some
        line, ended, _ = head.partition(b'\n')
        if not some:
            self.drop(connection)
        elif ended and self.knows(first_part(line)):
            self.leave(connection)
            self.enter(connection, head)
        elif b'\n\r\n' in head or b'\n\n' in head or len(head) > MOST_HEAD:
            try:
                connection.send(REFUSAL)
                connection.shutdown(socket.SHUT_WR)
            except OSError:
                pass
            self.drop(connection)
        else:
            self.waiting[connection] = until, head

    def leave(self, connection: socket.socket) -> None:
        self.ways.unregister(connection)
        del self.waiting[connection]

    def drop(self, connection: Optional[socket.socket] = None) -> None:
        """Hangs up, on the one that has waited longest where none is named."""
        connection = connection or next(iter(self.waiting))
        self.leave(connection)
        connection.close()


def first_part(line: bytes) -> bytes:
    """The first part of the path that a request's line names."""
    words = line.split(b' ')
    return words[1][1:].split(b'?')[0].split(b'/')[0] if len(words) == 3 else b''
