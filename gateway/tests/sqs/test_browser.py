"""Pages and links that command a gateway without keys, sent from Chromium, where there is one."""

import http.server
import os
import shutil
import signal
import socket
import subprocess
import threading
import urllib.request
from collections.abc import Callable, Iterator
from urllib.parse import parse_qs, quote, urlencode, urlsplit

import boto3
import pytest
from botocore.config import Config
from started import Started
from waiting import comes

CHROMIUM = shutil.which("chromium")
pytestmark = pytest.mark.skipif(CHROMIUM is None, reason="there is no chromium")

# What a page has its visitor's browser load, by the element that does so.
LOADED = {
    "picture": '<img src="{url}">',
    "style": '<link rel="stylesheet" href="{url}">',
    "script": '<script src="{url}"></script>',
    "frame": '<iframe src="{url}"></iframe>',
    "fetched": '<script>fetch("{url}", {{mode: "no-cors", referrerPolicy: "no-referrer"}})</script>',
    "posted": '<script>fetch("{url}", {{method: "POST", mode: "no-cors", body: "a=b"}})</script>',
}
# Where a page takes its visitor to.
TAKEN = {
    "location": '<script>location = "{url}"</script>',
    "refresh": '<meta http-equiv="refresh" content="0; url={url}">',
    "form": '<form action="{url}">{fields}</form><script>document.forms[0].submit()</script>',
    "posted-form": '<form method="post" action="{url}">{fields}</form><script>document.forms[0].submit()</script>',
}
# Links of a mail: to the gateway itself, with a name and a password, and to a stranger's page that leads there.
LINKS = ("link", "link-with-password", "redirected")
KINDS = (*LOADED, *TAKEN, *LINKS)
# A page can add these to a link.
MADE_UP = {"X-Amz-Algorithm": "AWS4-HMAC-SHA256", "X-Amz-Credential": "A/20260101/us-east-1/sqs/aws4_request", "X-Amz-Date": "20260101T000000Z",
           "X-Amz-Expires": "600", "X-Amz-SignedHeaders": "host", "X-Amz-Signature": "0" * 64}
QUEUE = "kept"


class Site:
    """A stranger's site, which has one page, and leads elsewhere."""

    def __init__(self) -> None:
        site = self
        self.page = ""

        class Handler(http.server.BaseHTTPRequestHandler):
            def do_GET(self) -> None:
                parts = urlsplit(self.path)
                if parts.path == "/elsewhere":
                    self.send_response(302)
                    self.send_header("Location", parse_qs(parts.query)["to"][0])
                    self.end_headers()
                    return
                self.send_response(200)
                self.send_header("Content-Type", "text/html")
                self.end_headers()
                self.wfile.write(site.page.encode())

            def log_message(self, *about: object) -> None:
                pass

        self.server = http.server.ThreadingHTTPServer(("", 0), Handler)
        self.port = self.server.server_port
        threading.Thread(target=self.server.serve_forever, daemon=True).start()

    def url(self, path: str = "/") -> str:
        return f"http://evil.example:{self.port}{path}"

    def end(self) -> None:
        self.server.shutdown()
        self.server.server_close()


@pytest.fixture(scope="module")
def site() -> Iterator[Site]:
    site = Site()
    yield site
    site.end()


def address() -> str:
    """An address of this machine that others may reach."""
    with socket.socket(socket.AF_INET, socket.SOCK_DGRAM) as probe:
        probe.connect(("192.0.2.1", 9))
        return probe.getsockname()[0]


def browse(room, url: str, has_come: Callable[[], bool]) -> None:
    """Opens an address as a mail program does, until what it is to bring about has come, or 20 s are over."""
    rules = f"MAP evil.example 127.0.0.1,MAP queues {address()}"
    browser = subprocess.Popen([CHROMIUM, "--headless=new", "--no-sandbox", "--disable-gpu", "--no-first-run", "--disable-background-networking",
                                f"--user-data-dir={room / 'browser'}", f"--host-resolver-rules={rules}", url],
                               stdout=subprocess.DEVNULL, stderr=subprocess.DEVNULL, start_new_session=True)
    try:
        comes(has_come, 20)
    finally:
        os.killpg(browser.pid, signal.SIGKILL)
        browser.wait()


def send(room, site: Site, kind: str, target: str, asks: list[dict[str, str]], count: Callable[[], int]) -> None:
    """Has a browser send these to that address, in this way, and waits until so many more are counted there."""
    begun, urls = count(), [url_of(target, kind, fields) for fields in asks]
    if kind in LOADED:
        site.page = "".join(LOADED[kind].format(url=url) for url in urls)
        browse(room, site.url(), lambda: count() >= begun + len(asks))
    for place, (fields, url) in enumerate(zip(asks, urls) if kind not in LOADED else []):
        opened = url if kind == "link" else url.replace("http://", "http://user:password@")
        if kind in TAKEN:
            inputs = "".join(f'<input name="{name}" value="{value}">' for name, value in {**fields, "kind": kind}.items())
            site.page = TAKEN[kind].format(url=f"http://{target}/" if "form" in kind else url, fields=inputs)
            opened = site.url()
        elif kind == "redirected":
            opened = site.url(f"/elsewhere?to={quote(url, safe='')}")
        browse(room, opened, lambda: count() > begun + place)
    assert count() >= begun + len(asks), f"{kind}: a browser doesn't send it"


def url_of(target: str, kind: str, fields: dict[str, str]) -> str:
    return f"http://{target}/?{urlencode({**fields, 'kind': kind})}"


def ways() -> list[tuple[str, list[str]]]:
    """By which names a browser reaches a gateway that was started so."""
    return [("127.0.0.1", []), ("localhost", []), (address(), ["--host", "0.0.0.0", "--open"]),
            ("queues", ["--host", "0.0.0.0", "--open", "--allowed-hosts", "queues"])]


def refusals(gateway: Started) -> int:
    """How many requests it has refused with 403. One for its icon, which browsers make by themselves, has 404."""
    operators = next(line.split()[-1] for line in gateway.said if line.startswith("health and metrics on "))
    with urllib.request.urlopen(f"{operators}/metrics", timeout=10) as answer:
        lines = answer.read().decode().splitlines()
    counts = [line for line in lines if line.startswith("hobbychair_requests_total{") and 'status="403"' in line]
    return sum(int(line.split()[-1]) for line in counts)


@pytest.mark.parametrize("host, words", ways(), ids=lambda one: one if isinstance(one, str) else "")
@pytest.mark.parametrize("more", [{}, MADE_UP], ids=["plain", "made-up"])
def test_nothing_that_a_browser_sends_changes_anything_or_is_handed_a_message(site, tmp_path, host, words, more):
    with Started(*words, "--admin", "0") as gateway:
        port = urlsplit(gateway.url).port
        sqs = boto3.client("sqs", endpoint_url=f"http://127.0.0.1:{port}", region_name="us-east-1", aws_access_key_id="A",
                           aws_secret_access_key="b", config=Config(retries={"max_attempts": 0}))
        queue = sqs.create_queue(QueueName=QUEUE)["QueueUrl"]
        sqs.send_message(QueueUrl=queue, MessageBody="one")
        of_queue = {"QueueUrl": queue}
        for kind in KINDS:
            asks = [{"Action": "CreateQueue", "QueueName": f"by-{kind}"}, {"Action": "SendMessage", **of_queue, "MessageBody": kind},
                    {"Action": "ReceiveMessage", **of_queue}, {"Action": "DeleteQueue", **of_queue}]
            send(tmp_path, site, kind, f"{host}:{port}", [{**fields, **more} for fields in asks], lambda: refusals(gateway))
            assert [url.rsplit("/", 1)[1] for url in sqs.list_queues()["QueueUrls"]] == [QUEUE], kind
        got = sqs.receive_message(QueueUrl=queue, MaxNumberOfMessages=10, AttributeNames=["All"])["Messages"]
        assert [(one["Body"], one["Attributes"]["ApproximateReceiveCount"]) for one in got] == [("one", "1")]
