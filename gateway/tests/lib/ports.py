"""Ports for processes that have to be told theirs: the system chooses them."""

import socket
from collections import deque

# Each port is kept from all others, also from those of other workers of pytest, by a socket that is bound there and never listens.
# What a test starts can listen there all the same, since it takes addresses that are bound so (SO_REUSEADDR).
_kept: deque[socket.socket] = deque()

# Those before the last so many belong to tests that are over.
MOST_KEPT = 300


def free_ports(count: int) -> list[int]:
    for _ in range(count):
        one = socket.socket()
        one.setsockopt(socket.SOL_SOCKET, socket.SO_REUSEADDR, 1)
        one.bind(("127.0.0.1", 0))
        _kept.append(one)
    ports = [one.getsockname()[1] for one in list(_kept)[len(_kept) - count:]]
    while len(_kept) > MOST_KEPT:
        _kept.popleft().close()
    return ports
