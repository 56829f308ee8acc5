"""A stand-in between a browser and a server, as a hub's proxy is."""
import socket
import threading

ANSWER = "HTTP/1.1 {} Refused\r\nContent-Length: 0\r\nConnection: close\r\n\r\n"


class StandIn:
    """Passes everything on to a server's port; or answers each request with a status. It ends with a `with`."""

    def __init__(self, port):
        self.server = port
        self.listener = socket.create_server(("127.0.0.1", 0))
        self.port = self.listener.getsockname()[1]
        self.status = 0
        self.held = set()
        threading.Thread(target=self.accept, daemon=True).start()

    def __enter__(self):
        return self

    def __exit__(self, *_):
        self.listener.shutdown(socket.SHUT_RDWR)
        self.listener.close()
        self.answer(503)

    def answer(self, status):
        """Ends all connections, and from now on answers with this status, or passes everything on if it is 0."""
        self.status = status
        for each in list(self.held):
            shut(each)

    def accept(self):
        while True:
            try:
                peer, _ = self.listener.accept()
            except OSError:
                return
            threading.Thread(target=self.serve, args=(peer,), daemon=True).start()

    def serve(self, peer):
        if not self.status:
            return self.join(peer)
        with peer:
            asked = b""
            while b"\r\n\r\n" not in asked and (more := peer.recv(65536)):
                asked += more
            peer.sendall(ANSWER.format(self.status).encode())

    def join(self, peer):
        """Passes bytes on in both directions, until one side ends."""
        with peer, socket.create_connection(("127.0.0.1", self.server)) as server:
            pair = {peer, server}
            self.held |= pair
            back = threading.Thread(target=pass_on, args=(server, peer), daemon=True)
            back.start()
            pass_on(peer, server)
            back.join()
            self.held -= pair


def pass_on(source, target):
    try:
        while some := source.recv(65536):
            target.sendall(some)
    except OSError:
        pass
    for each in (source, target):
        shut(each)


def shut(connection):
    try:
        connection.shutdown(socket.SHUT_RDWR)
    except OSError:
        pass
