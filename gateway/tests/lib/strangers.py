"""Processes that nobody started, and that answer in the place of one that is gone."""

from __future__ import annotations
from waiting import until

import socket
import ssl
import threading



class Stranger:
    """Listens at the port of a process that is gone, and tells whoever comes something."""

    def __init__(self, port: int, context: ssl.SSLContext, answer) -> None:
        self.context, self.answer = context, answer
        self.listener: socket.socket
        until(lambda: self.listens(port), 10, "the port isn't free")
        threading.Thread(target=self.accept, daemon=True).start()

    def listens(self, port: int) -> bool:
        try:
            self.listener = socket.create_server(("127.0.0.1", port))
            return True
        except OSError:
            return False

    def accept(self) -> None:
        while True:
            try:
                plain, _ = self.listener.accept()
            except OSError:
                return
            threading.Thread(target=self.converse, args=(plain,), daemon=True).start()

    def converse(self, plain: socket.socket) -> None:
        try:
            with self.context.wrap_socket(plain, server_side=True) as one:
                data = one.recv(1 << 16)
                if data:
                    one.sendall(self.answer(data))
                    while one.recv(1 << 16):
                        pass
        except (OSError, ssl.SSLError):
            pass

    def __enter__(self) -> Stranger:
        return self

    def __exit__(self, *_) -> None:
        self.listener.close()
