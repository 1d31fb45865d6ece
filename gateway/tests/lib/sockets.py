"""What the system tells of connections, where nothing else says how far a process is with what comes by them."""

import select
import socket
from pathlib import Path

ESTABLISHED = "01"


def is_all_read(port: int, connections: int) -> bool:
    """Whether so many connections are open at a port of this machine, and whoever listens there has read all that was sent by them."""
    count = unread = 0
    for line in Path("/proc/net/tcp").read_text().splitlines()[1:]:
        _, local, remote, state, queues, *_ = line.split()
        sent, come = (int(length, 16) for length in queues.split(":"))
        if _port_of(local) == port and state == ESTABLISHED:
            count += 1
            unread += come
        elif _port_of(remote) == port:
            unread += sent
    return count == connections and unread == 0


def _port_of(address: str) -> int:
    return int(address.rsplit(":", 1)[1], 16)


def readable(connections: list[socket.socket]) -> list[socket.socket]:
    """Those by which something has come, or that have ended."""
    poll, by_number = select.poll(), {connection.fileno(): connection for connection in connections}
    for number in by_number:
        poll.register(number, select.POLLIN)
    return [by_number[number] for number, _ in poll.poll(0)]
