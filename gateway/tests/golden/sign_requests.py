"""Writes requests as botocore signs them, at a fixed time: one line of JSON for each.

    python3 sign_requests.py > signed_by_botocore_VERSION.jsonl

The secrets are those of AWS's own examples.
"""

import datetime
import hashlib
import json
import os
import sys
from unittest import mock
from urllib.parse import urlsplit

import boto3
import botocore.auth
from botocore.auth import SigV4Auth, SigV4QueryAuth
from botocore.awsrequest import AWSRequest
from botocore.credentials import Credentials

ACCESS_KEY = "AKIDEXAMPLE"
SECRET = "wJalrXUtnFEMI/K7MDENG+bPxRfiCYEXAMPLEKEY"
TOKEN = "FwoGZXIvYXdzEXAMPLE//token+with/all=="
NOW = datetime.datetime(2026, 2, 28, 23, 59, 58)
QUEUE = "http://127.0.0.1:9324/000000000000/orders.fifo"
FIELDS = {
    "Action": "SendMessage",
    "MessageBody": "a b+c%d&e=f/ä€😀~*'()\n",
    "MessageGroupId": "!~",
    "Attribute.1": "",
    "attribute": "small letters are behind capitals",
}

written = []


def write(name, prepared):
    url = urlsplit(prepared.url)
    # What isn't signed and tells of the machine, or changes from run to run, stays out.
    headers = {name.lower(): text_of(value) for name, value in prepared.headers.items()}
    headers.pop("user-agent", None)
    if "amz-sdk-invocation-id" in headers:
        headers["amz-sdk-invocation-id"] = "2d6c1e0b-5a0e-4b53-8b3f-000000000000"
    headers.setdefault("host", url.netloc)
    written.append(
        {
            "name": name,
            "method": prepared.method,
            "path": url.path,
            "query": url.query,
            "headers": headers,
            "body": text_of(prepared.body or b""),
        }
    )


def text_of(value):
    return value.decode() if isinstance(value, bytes) else value


def client(token):
    return boto3.client(
        "sqs",
        endpoint_url="http://127.0.0.1:9324",
        region_name="eu-central-1",
        aws_access_key_id=ACCESS_KEY,
        aws_secret_access_key=SECRET,
        aws_session_token=token,
    )


def by_client(name, token=None):
    """What a real client puts on the wire."""
    sqs = client(token)

    def catch(request, **_):
        write(name, request)
        raise KeyboardInterrupt

    sqs.meta.events.register("before-send.sqs", catch)
    try:
        sqs.send_message(
            QueueUrl=QUEUE,
            MessageBody=FIELDS["MessageBody"].replace("\n", ""),
            MessageGroupId="a",
            MessageDeduplicationId="1",
            MessageAttributes={"ä": {"DataType": "String", "StringValue": "x y"}},
        )
    except KeyboardInterrupt:
        return
    raise SystemExit("the client sent nothing")


def by_signer(name, signer, method, url=QUEUE, context=None, **of_request):
    request = AWSRequest(method=method, url=url, **of_request)
    request.context.update(context or {})
    signer.add_auth(request)
    write(name, request.prepare())


def main():
    keys = Credentials(ACCESS_KEY, SECRET)
    with_token = Credentials(ACCESS_KEY, SECRET, TOKEN)
    header = SigV4Auth(keys, "sqs", "eu-central-1")
    query = SigV4QueryAuth(keys, "sqs", "eu-central-1", expires=3600)
    target = {"X-Amz-Target": "AmazonSQS.ListQueues", "Content-Type": "application/x-amz-json-1.0"}

    by_client("client")
    by_client("client with a token", token=TOKEN)
    by_signer("GET with fields", header, "GET", params=FIELDS)
    by_signer("GET with fields and a token", SigV4Auth(with_token, "sqs", "us-east-1"), "GET", params=FIELDS)
    by_signer("GET with fields in the URL", header, "GET", url=QUEUE + "?b=%20&a=%2B&a=%25&B=%26&c=%C3%A4")
    by_signer("GET of the root", header, "GET", url="http://localhost:9324/")
    by_signer("GET of no path", header, "GET", url="http://localhost:9324")
    by_signer("GET of a path that is normalized", header, "GET", url="http://h/1//a/./b/../q%20%2B.fifo/")
    by_signer("POST of JSON", header, "POST", data=b'{"a": "\xc3\xa4"}', headers=target)
    by_signer("POST of JSON with a query", header, "POST", url=QUEUE + "?x=1", data=b"{}", headers=target)
    by_signer("POST of a form", header, "POST", data=b"Action=ListQueues&QueueNamePrefix=a+b%2B")
    by_signer("POST of bytes", header, "POST", data="\x00\x7fä".encode(), headers=target)
    by_signer("POST with blanks in a header", header, "POST", data=b"{}", headers={"X-Amz-Meta": "  a   b  c "})
    by_signer("POST with Date", header, "POST", data=b"{}", headers={"Date": "any"})
    by_signer(
        "POST without its payload",
        header,
        "POST",
        url=QUEUE.replace("http", "https"),
        data=b"{}",
        context={"payload_signing_enabled": False},
    )
    digest = {"X-Amz-Content-SHA256": hashlib.sha256(b'{"a": 1}').hexdigest()}
    by_signer("POST with the hash of its payload", header, "POST", data=b'{"a": 1}', headers=digest)
    by_signer("presigned GET", query, "GET", params=FIELDS)
    by_signer("presigned GET with a token", SigV4QueryAuth(with_token, "sqs", "us-east-1"), "GET", params=FIELDS)
    by_signer("presigned GET with a field in the URL", query, "GET", url=QUEUE + "?a=%2B", params={"Action": "b c"})
    by_signer("presigned POST", query, "POST", data=dict(FIELDS))
    by_signer("presigned POST with headers", query, "POST", headers=target)


class Clock(datetime.datetime):
    @classmethod
    def utcnow(cls):
        return NOW

    @classmethod
    def now(cls, tz=None):
        return NOW.replace(tzinfo=tz)


# Nothing of the machine's own settings goes in.
for name in [name for name in os.environ if name.startswith("AWS_")]:
    del os.environ[name]
os.environ["AWS_EC2_METADATA_DISABLED"] = "true"
os.environ["AWS_CONFIG_FILE"] = os.environ["AWS_SHARED_CREDENTIALS_FILE"] = os.devnull

with mock.patch.object(botocore.auth.datetime, "datetime", Clock):
    if hasattr(botocore.auth, "get_current_datetime"):
        with mock.patch.object(botocore.auth, "get_current_datetime", lambda *_, **__: NOW):
            main()
    else:
        main()
for line in written:
    print(json.dumps(line, ensure_ascii=False))
print(f"botocore {botocore.__version__}: {len(written)} requests", file=sys.stderr)
