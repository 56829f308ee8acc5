"""The channels of a kernel, by plain sockets: a notebook takes thousands of requests, for which Jupyter's own client needs
several times as long."""
import hashlib
import hmac
import json
import secrets

DELIMITER = b"<IDS|MSG>"

CHANNELS = ("shell", "control", "stdin", "iopub")


class Wire:
    """Connected to the kernel that this connection information is of."""

    def __init__(self, info):
        import zmq
        key = info["key"]
        self.key, self.session = key if isinstance(key, bytes) else key.encode(), secrets.token_hex(8)
        self.count, self.sockets = 0, {}
        for name in CHANNELS:
            socket = self.sockets[name] = zmq.Context.instance().socket(zmq.SUB if name == "iopub" else zmq.DEALER)
            socket.linger = 0
            if name == "iopub":
                socket.subscribe(b"")
            else:
                socket.identity = self.session.encode()
            socket.connect(f"tcp://{info['ip']}:{info[name + '_port']}")

    def close(self):
        for socket in self.sockets.values():
            socket.close()

    def signature(self, parts):
        return hmac.new(self.key, b"".join(parts), hashlib.sha256).hexdigest().encode()

    def send(self, channel, kind, content):
        """Sends a request. Returns its number, which is the parent of what comes for it. Answers on shell that nobody reads would
        fill the connection in the end."""
        if channel == "shell":
            self.drain(channel)
        self.count += 1
        number = f"{self.session}-{self.count}"
        header = {"msg_id": number, "msg_type": kind, "session": self.session, "username": "", "date": "", "version": "5.4"}
        parts = [json.dumps(each).encode() for each in (header, {}, {}, content)]
        self.sockets[channel].send_multipart([DELIMITER, self.signature(parts), *parts])
        return number

    def receive(self, channel, seconds):
        """The next message within a time, as its type, its parent's number and its content; None if there is none."""
        socket = self.sockets[channel]
        if not socket.poll(max(0, int(1000 * seconds))):
            return None
        frames = socket.recv_multipart()
        at = frames.index(DELIMITER)
        signature, *parts = frames[at + 1:at + 6]
        if not hmac.compare_digest(signature, self.signature(parts)):
            return "", None, {}
        return json.loads(parts[0])["msg_type"], json.loads(parts[1]).get("msg_id"), json.loads(parts[3])

    def has(self, channel):
        """Whether a message waits."""
        return bool(self.sockets[channel].poll(0))

    def drain(self, channel):
        """Drops the messages that wait."""
        while self.has(channel):
            self.sockets[channel].recv_multipart()
