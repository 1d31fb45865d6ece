"""Writes one call of each action as this machine's botocore sends it: a line of JSON for each.

    python3 serialize_requests.py > serialized_by_botocore_VERSION.jsonl

The files beside this one are what two versions made of it: 1.29 speaks the query form, 1.43 speaks JSON.
"""

from __future__ import annotations

import base64
import json
import sys
from urllib.parse import urlsplit

import boto3
import botocore
from botocore.awsrequest import AWSResponse

URL = "http://127.0.0.1:9324/000000000000/orders.fifo"
TEXT = "a=1&b=2+3% <é>\r\n\t\U0001f600"
ATTRIBUTES = {
    "color": {"DataType": "String", "StringValue": "blue & green"},
    "count": {"DataType": "Number.int", "StringValue": "-7"},
    "bytes": {"DataType": "Binary", "BinaryValue": b"\x00\xff"},
}
TRACE = {"AWSTraceHeader": {"DataType": "String", "StringValue": "Root=1-5759e988-bd862e3fe1be46a994272793"}}
MESSAGE = {"MessageBody": TEXT, "MessageGroupId": "g!1", "MessageDeduplicationId": "d~1", "MessageAttributes": ATTRIBUTES,
           "MessageSystemAttributes": TRACE}
ARN = "arn:aws:sqs:us-east-1:000000000000:orders.fifo"
HANDLE = base64.urlsafe_b64encode(b"00000000-0000-4000-8000-000000000007/orders.fifo").decode().rstrip("=")
CALLS: list[tuple[str, dict]] = [
    ("add_permission", {"QueueUrl": URL, "Label": "l-1", "AWSAccountIds": ["123456789012", "210987654321"],
                        "Actions": ["SendMessage", "*"]}),
    ("cancel_message_move_task", {"TaskHandle": HANDLE}),
    ("change_message_visibility", {"QueueUrl": URL, "ReceiptHandle": "h+/=", "VisibilityTimeout": 12}),
    ("change_message_visibility_batch", {"QueueUrl": URL, "Entries": [
        {"Id": "a", "ReceiptHandle": "1", "VisibilityTimeout": 0}, {"Id": "b", "ReceiptHandle": "2", "VisibilityTimeout": 43200}]}),
    ("create_queue", {"QueueName": "orders.fifo", "Attributes": {"FifoQueue": "true", "VisibilityTimeout": "5"},
                      "tags": {"team": "x + y", "empty": ""}}),
    ("delete_message", {"QueueUrl": URL, "ReceiptHandle": "h+/="}),
    ("delete_message_batch", {"QueueUrl": URL, "Entries": [{"Id": "a", "ReceiptHandle": "1"}, {"Id": "b", "ReceiptHandle": "2"}]}),
    ("delete_queue", {"QueueUrl": URL}),
    ("get_queue_attributes", {"QueueUrl": URL, "AttributeNames": ["QueueArn", "VisibilityTimeout"]}),
    ("get_queue_url", {"QueueName": "orders.fifo"}),
    ("list_dead_letter_source_queues", {"QueueUrl": URL, "MaxResults": 7, "NextToken": "b3JkZXJzLmZpZm_8wj9Q"}),
    ("list_message_move_tasks", {"SourceArn": ARN, "MaxResults": 7}),
    ("list_queue_tags", {"QueueUrl": URL}),
    ("list_queues", {"QueueNamePrefix": "or", "MaxResults": 7, "NextToken": "b3JkZXJzLmZpZm_8wj9Q"}),
    ("purge_queue", {"QueueUrl": URL}),
    ("receive_message", {"QueueUrl": URL, "AttributeNames": ["SenderId", "SentTimestamp"], "MessageAttributeNames": ["color", "b.*"],
                         "MaxNumberOfMessages": 10, "VisibilityTimeout": 0, "WaitTimeSeconds": 20, "ReceiveRequestAttemptId": "x!1"}),
    ("remove_permission", {"QueueUrl": URL, "Label": "l-1"}),
    ("send_message", {"QueueUrl": URL, **MESSAGE}),
    ("send_message_batch", {"QueueUrl": URL, "Entries": [{"Id": "1", **MESSAGE}, {"Id": "2-_", "MessageBody": "b", "MessageGroupId": "g"}]}),
    ("set_queue_attributes", {"QueueUrl": URL, "Attributes": {"VisibilityTimeout": "9"}}),
    ("start_message_move_task", {"SourceArn": ARN, "DestinationArn": ARN, "MaxNumberOfMessagesPerSecond": 500}),
    ("tag_queue", {"QueueUrl": URL, "Tags": {"a": "1", "b": "2"}}),
    ("untag_queue", {"QueueUrl": URL, "TagKeys": ["a", "b"]}),
]


def main() -> None:
    client = boto3.client("sqs", endpoint_url="http://127.0.0.1:9324", region_name="us-east-1",
                          aws_access_key_id="any", aws_secret_access_key="any")
    sent = []

    def capture(request, **_):
        sent.append(request)
        return AWSResponse(request.url, 200, {}, None)

    client.meta.events.register("before-send.sqs", capture)
    # Version 1.29.27 doesn't know the tasks that move messages yet.
    for name, members in [(name, members) for name, members in CALLS if hasattr(client, name)]:
        try:
            getattr(client, name)(**members)
        except Exception:  # (nothing answered)
            pass
        request = sent.pop()
        body = request.body or b""
        json.dump({
            "call": name, "method": request.method, "path": urlsplit(request.url).path, "query": urlsplit(request.url).query,
            "target": (request.headers.get("X-Amz-Target") or b"").decode() if isinstance(request.headers.get("X-Amz-Target"), bytes)
            else request.headers.get("X-Amz-Target"),
            "body": body.decode() if isinstance(body, bytes) else body,
        }, sys.stdout)
        print()
    print(f"botocore {botocore.__version__}", file=sys.stderr)


main()
