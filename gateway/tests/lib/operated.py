"""What an operator asks a gateway."""

import re
import urllib.error
import urllib.request

from started import Started
from waiting import until


def get(url: str) -> tuple[int, str]:
    try:
        with urllib.request.urlopen(url, timeout=20) as response:
            return response.status, response.read().decode()
    except urllib.error.HTTPError as error:
        return error.code, error.read().decode()


def admin_url(gateway: Started) -> str:
    return next(line.split()[-1] for line in gateway.said if line.startswith("health and metrics on "))


def metric(text: str, row: str) -> float:
    found = re.search(rf"^{re.escape(row)} (\S+)$", text, re.MULTILINE)
    assert found, (row, text)
    return float(found[1])


def figure(gateway: Started, row: str) -> float:
    """A number of its metrics, as it is now."""
    return metric(get(admin_url(gateway) + "/metrics")[1], row)


def count_polls(admin: str) -> float:
    """How many receives wait for a message at the gateway that tells its figures at that URL."""
    return metric(get(f"{admin}/metrics")[1], "hobbychair_long_polls")


def polls(gateway: Started | str, count: int) -> None:
    """Waits until so many receives wait for a message at a gateway, or at the one that tells its figures at that URL."""
    admin = gateway if isinstance(gateway, str) else admin_url(gateway)
    until(lambda: count_polls(admin) == count, 20, f"not {count} receives wait")


def connections(gateway: Started, count: int) -> None:
    """Waits until so many connections are open."""
    until(lambda: figure(gateway, "hobbychair_connections") == count, 20, f"not {count} connections are open")


def is_well(gateway: Started) -> None:
    """Waits until it says that it serves: it doesn't where `cq` has had so much to do that no answer came in time."""
    until(lambda: get(admin_url(gateway) + "/health") == (200, "serving\n"), 20, "it doesn't say that it serves")
