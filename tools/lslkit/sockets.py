"""A client of web sockets, for the protocols by which browsers are driven."""
import base64
import json
import os
import socket
import struct
from urllib.parse import urlsplit

TEXT, CLOSE, PING, PONG = 1, 8, 9, 10


class Closed(Exception):
    """The other side has ended the connection."""


class Socket:
    """A connection whose messages are values in JSON."""

    def __init__(self, url, seconds=60):
        where = urlsplit(url)
        self.stream = socket.create_connection((where.hostname, where.port), seconds)
        self.left = b""
        path = where.path + (f"?{where.query}" if where.query else "")
        key = base64.b64encode(os.urandom(16)).decode()
        head = f"GET {path or '/'} HTTP/1.1\r\nHost: {where.hostname}:{where.port}\r\nUpgrade: websocket\r\n"
        head += f"Connection: Upgrade\r\nSec-WebSocket-Key: {key}\r\nSec-WebSocket-Version: 13\r\n\r\n"
        self.stream.sendall(head.encode())
        answer = self.until(b"\r\n\r\n")
        if b" 101 " not in answer.split(b"\r\n")[0]:
            raise Closed(answer.decode(errors="replace").split("\r\n")[0])

    def until(self, end):
        while end not in self.left:
            self.fill()
        front, _, self.left = self.left.partition(end)
        return front

    def fill(self):
        piece = self.stream.recv(1 << 16)
        if not piece:
            raise Closed("the browser has ended the connection")
        self.left += piece

    def take(self, count):
        while len(self.left) < count:
            self.fill()
        front, self.left = self.left[:count], self.left[count:]
        return front

    def send(self, value):
        self.send_frame(TEXT, json.dumps(value).encode())

    def send_frame(self, sort, content):
        mask = os.urandom(4)
        length = len(content)
        if length < 126:
            head = struct.pack("!BB", 128 | sort, 128 | length)
        elif length < 1 << 16:
            head = struct.pack("!BBH", 128 | sort, 254, length)
        else:
            head = struct.pack("!BBQ", 128 | sort, 255, length)
        masks = (mask * (length // 4 + 1))[:length]
        masked = (int.from_bytes(content, "big") ^ int.from_bytes(masks, "big")).to_bytes(length, "big")
        self.stream.sendall(head + mask + masked)

    def receive(self):
        """The next message. A `TimeoutError` where none comes in time."""
        whole = b""
        while True:
            first, second = self.take(2)
            length = second & 127
            if length > 125:
                length = int.from_bytes(self.take(2 if length == 126 else 8), "big")
            content = self.take(length)
            if first & 15 == CLOSE:
                raise Closed("the browser has ended the connection")
            if first & 15 == PING:
                self.send_frame(PONG, content)
                continue
            whole += content if first & 15 != PONG else b""
            if first & 128 and first & 15 != PONG:
                return json.loads(whole)

    def close(self):
        self.stream.close()
