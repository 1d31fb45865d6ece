"""Each action and each error, by the real client and by requests written here in both protocols."""

import hashlib
import json
import time
from concurrent.futures import ThreadPoolExecutor

import pytest

from operated import polls
from rules import new_name, new_queue
from started import ByBoto3, ByJson, ByQuery, Refused, boto3_client, post
from waiting import pass_time


POLICY = ('{"Version":"2012-10-17","Statement":[{"Sid":"own","Effect":"Allow","Principal":"*","Action":"sqs:SendMessage",'
          '"Resource":"*"}]}')


def send(call, queue: str, dedup: str, group: str = "g", body: str = "b", **more):
    return call("SendMessage", QueueUrl=queue, MessageBody=body, MessageGroupId=group, MessageDeduplicationId=dedup,
                **more)


def receive(call, queue: str, **more) -> list[dict]:
    return call("ReceiveMessage", QueueUrl=queue, **{"MaxNumberOfMessages": 10, **more}).get("Messages", [])


def refusal(call, action: str, **members) -> str:
    with pytest.raises(Refused) as refused:
        call(action, **members)
    assert refused.value.status == (403 if "PurgeQueueInProgress" in refused.value.code else 400)
    return refused.value.code.removeprefix("AWS.SimpleQueueService.")


# Queues

def test_queues_are_created_found_listed_and_removed(call, gateway):
    name = new_name()
    url = call("CreateQueue", QueueName=name, Attributes={"FifoQueue": "true"}, tags={"a": "b"})["QueueUrl"]
    assert url == f"{gateway.url}/000000000000/{name}"
    assert call("GetQueueUrl", QueueName=name)["QueueUrl"] == url
    assert call("ListQueues", QueueNamePrefix=name)["QueueUrls"] == [url]
    assert call("ListQueueTags", QueueUrl=url)["Tags"] == {"a": "b"}
    call("DeleteQueue", QueueUrl=url)
    assert not call("ListQueues", QueueNamePrefix=name).get("QueueUrls")
    assert refusal(call, "GetQueueUrl", QueueName=name) == "NonExistentQueue"
    assert refusal(call, "DeleteQueue", QueueUrl=url) == "NonExistentQueue"


def test_lists_come_in_pages(call):
    prefix = new_name().removesuffix(".fifo")
    urls = [call("CreateQueue", QueueName=f"{prefix}-{place}.fifo", Attributes={"FifoQueue": "true"})["QueueUrl"]
            for place in range(5)]
    first = call("ListQueues", QueueNamePrefix=f"{prefix}-", MaxResults=2)
    second = call("ListQueues", QueueNamePrefix=f"{prefix}-", MaxResults=2, NextToken=first["NextToken"])
    third = call("ListQueues", QueueNamePrefix=f"{prefix}-", MaxResults=2, NextToken=second["NextToken"])
    assert first["QueueUrls"] + second["QueueUrls"] + third["QueueUrls"] == urls
    assert "NextToken" not in third
    assert refusal(call, "ListQueues", MaxResults=1001) == "InvalidParameterValue"


def test_attributes_are_told_and_set(call):
    queue = new_queue(call, VisibilityTimeout="7", Policy=POLICY)
    whole = call("GetQueueAttributes", QueueUrl=queue, AttributeNames=["All"])["Attributes"]
    name = queue.rsplit("/", 1)[-1]
    assert whole["QueueArn"] == f"arn:aws:sqs:us-east-1:000000000000:{name}"
    assert (whole["VisibilityTimeout"], whole["FifoQueue"], whole["Policy"]) == ("7", "true", POLICY)
    assert whole["ApproximateNumberOfMessages"] == "0"
    call("SetQueueAttributes", QueueUrl=queue, Attributes={"VisibilityTimeout": "0", "Policy": "",
                                                          "ContentBasedDeduplication": "true"})
    told = call("GetQueueAttributes", QueueUrl=queue,
                AttributeNames=["VisibilityTimeout", "Policy", "ContentBasedDeduplication"])["Attributes"]
    assert told == {"VisibilityTimeout": "0", "ContentBasedDeduplication": "true"}
    for _ in range(2):
        call("SendMessage", QueueUrl=queue, MessageBody="x", MessageGroupId="g")
    assert len(receive(call, queue)) == 1 and len(receive(call, queue)) == 1
    call("SetQueueAttributes", QueueUrl=queue, Attributes={"ContentBasedDeduplication": "false"})
    assert refusal(call, "SendMessage", QueueUrl=queue, MessageBody="x", MessageGroupId="g") == "InvalidParameterValue"


def test_a_queue_with_the_same_policy_is_the_same(call):
    queue = new_queue(call, Policy=POLICY)
    name = queue.rsplit("/", 1)[-1]
    other = json.dumps(dict(reversed(json.loads(POLICY).items())), indent=1)
    assert other != POLICY
    same = {"FifoQueue": "true", "Policy": other}
    assert call("CreateQueue", QueueName=name, Attributes=same)["QueueUrl"] == queue
    same["Policy"] = POLICY.replace("2012", "2008")
    assert refusal(call, "CreateQueue", QueueName=name, Attributes=same) == "QueueAlreadyExists"


def test_permissions_are_statements_of_the_policy(call):
    """As SQS writes them, by moto."""
    queue = new_queue(call, Policy=POLICY)
    arn = "arn:aws:sqs:us-east-1:000000000000:" + queue.rsplit("/", 1)[-1]

    def policy():
        told = call("GetQueueAttributes", QueueUrl=queue, AttributeNames=["All"])["Attributes"]
        return json.loads(told["Policy"]) if "Policy" in told else None

    call("AddPermission", QueueUrl=queue, Label="one", AWSAccountIds=["123456789012"], Actions=["SendMessage"])
    call("AddPermission", QueueUrl=queue, Label="two", AWSAccountIds=["123456789012", "210987654321"],
         Actions=["SendMessage", "ReceiveMessage"])
    whole = policy()
    assert whole["Version"] == "2012-10-17" and whole["Statement"] == json.loads(POLICY)["Statement"] + [
        {"Sid": "one", "Effect": "Allow", "Principal": {"AWS": "arn:aws:iam::123456789012:root"},
         "Action": "SQS:SendMessage", "Resource": arn},
        {"Sid": "two", "Effect": "Allow",
         "Principal": {"AWS": ["arn:aws:iam::123456789012:root", "arn:aws:iam::210987654321:root"]},
         "Action": ["SQS:SendMessage", "SQS:ReceiveMessage"], "Resource": arn}]
    for members, code in [
        ({"Label": "one"}, "InvalidParameterValue"),
        ({"Label": "own"}, "InvalidParameterValue"),
        ({"Label": "a b"}, "InvalidParameterValue"),
        ({"AWSAccountIds": ["1"]}, "InvalidParameterValue"),
        ({"Actions": ["SendMessageBatch"]}, "InvalidParameterValue"),
    ]:
        good = {"Label": "other", "AWSAccountIds": ["123456789012"], "Actions": ["*"]}
        assert refusal(call, "AddPermission", QueueUrl=queue, **{**good, **members}) == code
    with pytest.raises(Refused) as refused:
        call("AddPermission", QueueUrl=queue, Label="x", AWSAccountIds=["123456789012"], Actions=["SendMessage"] * 8)
    assert (refused.value.code, refused.value.status) == ("OverLimit", 403)
    assert policy() == whole
    assert refusal(call, "RemovePermission", QueueUrl=queue, Label="none") == "InvalidParameterValue"
    for label in ("own", "two", "one"):
        call("RemovePermission", QueueUrl=queue, Label=label)
    assert policy() is None
    for place in range(20):
        call("AddPermission", QueueUrl=queue, Label=str(place), AWSAccountIds=["123456789012"], Actions=["*"])
    assert policy()["Id"] == f"{arn}/SQSDefaultPolicy"
    with pytest.raises(Refused, match="OverLimit"):
        call("AddPermission", QueueUrl=queue, Label="x", AWSAccountIds=["123456789012"], Actions=["*"])


def test_permissions_that_come_at_once_are_all_there(call, gateway):
    queue = new_queue(call)

    def add(place: int) -> None:
        own = type(call)(gateway.client() if isinstance(call, ByBoto3) else gateway.url)
        own("AddPermission", QueueUrl=queue, Label=str(place), AWSAccountIds=["123456789012"], Actions=["*"])

    with ThreadPoolExecutor(8) as pool:
        list(pool.map(add, range(16)))
    told = call("GetQueueAttributes", QueueUrl=queue, AttributeNames=["Policy"])["Attributes"]
    assert sorted(one["Sid"] for one in json.loads(told["Policy"])["Statement"]) == sorted(map(str, range(16)))


def test_a_queue_has_keys_of_one_kind(call):
    def keys(queue: str) -> tuple:
        told = call("GetQueueAttributes", QueueUrl=queue, AttributeNames=["All"])["Attributes"]
        return told.get("KmsMasterKeyId"), told["SqsManagedSseEnabled"]

    queue = new_queue(call)
    assert keys(queue) == (None, "true")
    call("SetQueueAttributes", QueueUrl=queue, Attributes={"KmsMasterKeyId": "alias/aws/sqs"})
    assert keys(queue) == ("alias/aws/sqs", "false")
    name = queue.rsplit("/", 1)[-1]
    same = {"FifoQueue": "true", "KmsMasterKeyId": "alias/aws/sqs"}
    assert call("CreateQueue", QueueName=name, Attributes=same)["QueueUrl"] == queue
    assert refusal(call, "SetQueueAttributes", QueueUrl=queue, Attributes={
        "KmsMasterKeyId": "k", "SqsManagedSseEnabled": "true"}) == "InvalidAttributeValue"
    call("SetQueueAttributes", QueueUrl=queue, Attributes={"SqsManagedSseEnabled": "true"})
    assert keys(queue) == (None, "true")
    assert keys(new_queue(call, KmsMasterKeyId="k")) == ("k", "false")
    assert keys(new_queue(call, SqsManagedSseEnabled="false")) == (None, "false")


def test_a_queue_that_made_ids_stops_making_them(call):
    queue = new_queue(call, ContentBasedDeduplication="true")
    call("SendMessage", QueueUrl=queue, MessageBody="x", MessageGroupId="g")
    call("SetQueueAttributes", QueueUrl=queue, Attributes={"ContentBasedDeduplication": "false"})
    assert refusal(call, "SendMessage", QueueUrl=queue, MessageBody="y", MessageGroupId="g") == "InvalidParameterValue"


def test_tags(call):
    queue = new_queue(call)
    call("TagQueue", QueueUrl=queue, Tags={"a": "1", "b": "2", "c": ""})
    call("TagQueue", QueueUrl=queue, Tags={"b": "3"})
    call("UntagQueue", QueueUrl=queue, TagKeys=["a", "none"])
    assert call("ListQueueTags", QueueUrl=queue)["Tags"] == {"b": "3", "c": ""}
    many = {str(place): "x" for place in range(50)}
    assert refusal(call, "TagQueue", QueueUrl=queue, Tags=many) == "InvalidParameterValue"
    for tags in ({"aws:a": "x"}, {"AWS:a": "x"}, {"a&": "x"}, {"a": "<"}, {"a": "x\n"}, {"": "x"}, {"x" * 129: "x"},
                 {"a": "x" * 257}):
        assert refusal(call, "TagQueue", QueueUrl=queue, Tags=tags) == "InvalidParameterValue"
        assert refusal(call, "CreateQueue", QueueName="tagged.fifo", Attributes={"FifoQueue": "true"},
                       tags=tags) == "InvalidParameterValue"
    call("TagQueue", QueueUrl=queue, Tags={"_.:/=+-@ é\u00a01Ⅷ": "aws:é日"})
    call("UntagQueue", QueueUrl=queue, TagKeys=["_.:/=+-@ é\u00a01Ⅷ"])
    call("UntagQueue", QueueUrl=queue, TagKeys=["b", "c"])
    assert not call("ListQueueTags", QueueUrl=queue).get("Tags")


@pytest.mark.parametrize("name, attributes, code", [
    ("standard", {"FifoQueue": "true"}, "InvalidParameterValue"),
    ("standard", {"FifoQueue": "false"}, "InvalidAttributeName"),
    ("standard", {"ContentBasedDeduplication": "false"}, "InvalidAttributeName"),
    ("standard", {"DeduplicationScope": "queue"}, "InvalidAttributeName"),
    ("standard", {"FifoThroughputLimit": "perQueue"}, "InvalidAttributeName"),
    ("standard", {"DelaySeconds": "901"}, "InvalidAttributeValue"),
    ("stan.dard", {}, "InvalidParameterValue"),
    ("x" * 81, {}, "InvalidParameterValue"),
    ("q.fifo", {}, "InvalidParameterValue"),
    ("q.fifo", {"FifoQueue": "false"}, "InvalidParameterValue"),
    ("a b.fifo", {"FifoQueue": "true"}, "InvalidParameterValue"),
    (".fifo", {"FifoQueue": "true"}, "InvalidParameterValue"),
    ("x" * 76 + ".fifo", {"FifoQueue": "true"}, "InvalidParameterValue"),
    ("q.fifo", {"FifoQueue": "true", "Colour": "red"}, "InvalidAttributeName"),
    ("q.fifo", {"FifoQueue": "true", "ApproximateNumberOfMessages": "1"}, "InvalidAttributeName"),
    ("q.fifo", {"FifoQueue": "perhaps"}, "InvalidParameterValue"),
    ("q.fifo", {"FifoQueue": "true", "VisibilityTimeout": "43201"}, "InvalidAttributeValue"),
    ("q.fifo", {"FifoQueue": "true", "VisibilityTimeout": "-1"}, "InvalidAttributeValue"),
    ("q.fifo", {"FifoQueue": "true", "DelaySeconds": "901"}, "InvalidAttributeValue"),
    ("q.fifo", {"FifoQueue": "true", "RedrivePolicy": "{}"}, "InvalidParameterValue"),
    ("q.fifo", {"FifoQueue": "true", "RedriveAllowPolicy": "{}"}, "InvalidParameterValue"),
    ("q.fifo", {"FifoQueue": "true", "MaximumMessageSize": "1048577"}, "InvalidAttributeValue"),
    ("q.fifo", {"FifoQueue": "true", "MaximumMessageSize": "1023"}, "InvalidAttributeValue"),
    ("q.fifo", {"FifoQueue": "true", "ReceiveMessageWaitTimeSeconds": "21"}, "InvalidAttributeValue"),
    ("q.fifo", {"FifoQueue": "true", "Policy": "nonsense"}, "InvalidAttributeValue"),
    ("q.fifo", {"FifoQueue": "true", "Policy": "{}"}, "InvalidAttributeValue"),
    ("q.fifo", {"FifoQueue": "true", "KmsMasterKeyId": "k", "SqsManagedSseEnabled": "true"}, "InvalidAttributeValue"),
    ("q.fifo", {"FifoQueue": "true", "MessageRetentionPeriod": "59"}, "InvalidAttributeValue"),
    ("q.fifo", {"FifoQueue": "true", "FifoThroughputLimit": "perMessageGroupId"}, "InvalidAttributeValue"),
])
def test_bad_queues_are_refused(call, name, attributes, code):
    assert refusal(call, "CreateQueue", QueueName=name, Attributes=attributes) == code


def test_bad_changes_of_attributes_are_refused(call):
    queue = new_queue(call)
    for attributes, code in [({"FifoQueue": "false"}, "InvalidAttributeValue"),
                             ({"DelaySeconds": "-1"}, "InvalidAttributeValue"), ({"Colour": "red"}, "InvalidAttributeName")]:
        assert refusal(call, "SetQueueAttributes", QueueUrl=queue, Attributes=attributes) == code
    assert refusal(call, "GetQueueAttributes", QueueUrl=queue, AttributeNames=["Colour"]) == "InvalidAttributeName"


def test_all_actions_on_no_queue_are_refused(call, gateway):
    none = f"{gateway.url}/000000000000/none.fifo"
    entry = {"Id": "1", "MessageBody": "b", "MessageGroupId": "g", "MessageDeduplicationId": "d"}
    for action, members in {
        "GetQueueAttributes": {"AttributeNames": ["All"]},
        "SetQueueAttributes": {"Attributes": {"VisibilityTimeout": "1"}},
        "SendMessage": {"MessageBody": "b", "MessageGroupId": "g", "MessageDeduplicationId": "d"},
        "SendMessageBatch": {"Entries": [entry]},
        "ReceiveMessage": {},
        "DeleteMessage": {"ReceiptHandle": "x"},
        "DeleteMessageBatch": {"Entries": [{"Id": "1", "ReceiptHandle": "x"}]},
        "ChangeMessageVisibility": {"ReceiptHandle": "x", "VisibilityTimeout": 1},
        "ChangeMessageVisibilityBatch": {"Entries": [{"Id": "1", "ReceiptHandle": "x", "VisibilityTimeout": 1}]},
        "PurgeQueue": {},
        "TagQueue": {"Tags": {"a": "b"}},
        "UntagQueue": {"TagKeys": ["a"]},
        "ListQueueTags": {},
        "AddPermission": {"Label": "l", "AWSAccountIds": ["123456789012"], "Actions": ["SendMessage"]},
        "RemovePermission": {"Label": "l"},
        "ListDeadLetterSourceQueues": {},
    }.items():
        assert refusal(call, action, QueueUrl=none, **members) == "NonExistentQueue", action


def test_what_is_not_done_is_refused(call):
    queue = new_queue(call)
    assert refusal(call, "SendMessage", QueueUrl=queue, MessageBody="b", MessageGroupId="g",
                   MessageDeduplicationId="d", DelaySeconds=1) == "InvalidParameterValue"


# Messages

def test_a_message_comes_with_all_that_it_was_sent_with(call, gateway):
    queue = new_queue(call)
    attributes = {"text": {"DataType": "String.label", "StringValue": "wört\r\n<&>"},
                  "number": {"DataType": "Number", "StringValue": "-1.5e3"},
                  "long": {"DataType": "Number", "StringValue": "-000" + "9" * 38 + "000"},
                  "bytes.of": {"DataType": "Binary", "BinaryValue": bytes(range(256))}}
    trace = {"AWSTraceHeader": {"DataType": "String", "StringValue": "Root=1"}}
    sent = send(call, queue, "d", group="!~", body="hello", MessageAttributes=attributes, MessageSystemAttributes=trace)
    assert sent["MD5OfMessageBody"] == hashlib.md5(b"hello").hexdigest()
    assert sent["MD5OfMessageAttributes"] == expected_md5(attributes)
    assert sent["MD5OfMessageSystemAttributes"] == expected_md5(trace)
    (message,) = receive(call, queue, AttributeNames=["All"], MessageAttributeNames=["All"], VisibilityTimeout=0)
    assert message["MessageId"] == sent["MessageId"] and message["Body"] == "hello"
    assert message["MD5OfBody"] == sent["MD5OfMessageBody"]
    assert message["MessageAttributes"] == attributes
    assert message["MD5OfMessageAttributes"] == sent["MD5OfMessageAttributes"]
    system = message["Attributes"]
    assert system.pop("SenderId")
    assert system == {
        "ApproximateFirstReceiveTimestamp": str(gateway.moment), "ApproximateReceiveCount": "1",
        "AWSTraceHeader": "Root=1", "MessageDeduplicationId": "d", "MessageGroupId": "!~",
        "SentTimestamp": str(gateway.moment), "SequenceNumber": sent["SequenceNumber"],
    }
    (message,) = receive(call, queue, AttributeNames=["ApproximateReceiveCount"],
                         MessageAttributeNames=["bytes.*", "number"])
    assert message["Attributes"] == {"ApproximateReceiveCount": "2"}
    chosen = {name: attributes[name] for name in ("number", "bytes.of")}
    assert message["MessageAttributes"] == chosen
    assert message["MD5OfMessageAttributes"] == expected_md5(chosen)


def expected_md5(attributes: dict) -> str:
    data = b""
    for name in sorted(attributes):
        value = attributes[name]
        content = value.get("BinaryValue") or value["StringValue"].encode()
        for part in (name.encode(), value["DataType"].encode()):
            data += len(part).to_bytes(4, "big") + part
        data += (b"\2" if "BinaryValue" in value else b"\1") + len(content).to_bytes(4, "big") + content
    return hashlib.md5(data).hexdigest()


def test_a_message_shows_nothing_that_was_not_asked_for(call):
    queue = new_queue(call)
    send(call, queue, "d", MessageAttributes={"a": {"DataType": "String", "StringValue": "x"}})
    (message,) = receive(call, queue)
    assert set(message) == {"MessageId", "ReceiptHandle", "MD5OfBody", "Body"}


def test_bodies_of_all_kinds_of_characters(call):
    queue = new_queue(call)
    kinds = "\t\n\r\r\n \x7f\x80<>&\"'é€\ud7ff\ue000\ufffd\U00010000\U0010ffff😀"
    whole = kinds * (1_048_576 // len(kinds.encode()))
    whole += "x" * (1_048_576 - len(whole.encode()))
    sent = send(call, queue, "d", body=whole)
    assert sent["MD5OfMessageBody"] == hashlib.md5(whole.encode()).hexdigest()
    (message,) = receive(call, queue)
    assert message["Body"] == whole and message["MD5OfBody"] == sent["MD5OfMessageBody"]
    assert refusal(call, "SendMessage", QueueUrl=queue, MessageBody=whole + "x", MessageGroupId="g",
                   MessageDeduplicationId="e") == "InvalidParameterValue"


def test_ten_long_bodies_are_received_at_once(call):
    queue = new_queue(call)
    for place in range(10):
        send(call, queue, str(place), body="\r" * 1_048_576)
    assert [len(message["Body"]) for message in receive(call, queue)] == [1_048_576] * 10
    queue = new_queue(call)
    entries = [entry(place, MessageBody=str(place) * (1_048_576 // 10)) for place in range(10)]
    assert len(call("SendMessageBatch", QueueUrl=queue, Entries=entries)["Successful"]) == 10
    assert [message["Body"] for message in receive(call, queue)] == [one["MessageBody"] for one in entries]


def test_the_size_of_a_message_is_its_queues(call):
    queue = new_queue(call)
    told = call("GetQueueAttributes", QueueUrl=queue, AttributeNames=["MaximumMessageSize"])["Attributes"]
    assert told == {"MaximumMessageSize": "1048576"}
    call("SetQueueAttributes", QueueUrl=queue, Attributes={"MaximumMessageSize": "300000"})
    value = {"a": {"DataType": "Binary", "BinaryValue": b"\xff" * 100_000}}
    for size, code in ((200_000 - 7, None), (200_000 - 6, "InvalidParameterValue")):
        whole = {"MessageBody": "x" * size, "MessageGroupId": "g", "MessageDeduplicationId": "d", "MessageAttributes": value}
        if code is None:
            call("SendMessage", QueueUrl=queue, **whole)
        else:
            assert refusal(call, "SendMessage", QueueUrl=queue, **whole) == code


@pytest.mark.parametrize("members, code", [
    ({"MessageBody": "\x0b"}, "InvalidMessageContents"),
    ({"MessageGroupId": "a b"}, "InvalidParameterValue"),
    ({"MessageGroupId": "x" * 129}, "InvalidParameterValue"),
    ({"MessageDeduplicationId": "ä"}, "InvalidParameterValue"),
    ({"MessageDeduplicationId": "x" * 129}, "InvalidParameterValue"),
    ({"MessageAttributes": {"AWS.a": {"DataType": "String", "StringValue": "x"}}}, "InvalidParameterValue"),
    ({"MessageAttributes": {"a": {"DataType": "Text", "StringValue": "x"}}}, "InvalidParameterValue"),
    ({"MessageAttributes": {"a": {"DataType": "Number", "StringValue": "one"}}}, "InvalidParameterValue"),
    ({"MessageAttributes": {"a": {"DataType": "Number", "StringValue": "1" * 39}}}, "InvalidParameterValue"),
    ({"MessageAttributes": {"a": {"DataType": "Number", "StringValue": "1e127"}}}, "InvalidParameterValue"),
    ({"MessageAttributes": {"a": {"DataType": "Binary", "StringValue": "x"}}}, "InvalidParameterValue"),
    ({"MessageAttributes": {"a": {"DataType": "String", "StringListValues": ["x"]}}}, "UnsupportedOperation"),
    ({"MessageAttributes": {"a": {"DataType": "Binary", "BinaryListValues": [b"x"]}}}, "UnsupportedOperation"),
    ({"MessageAttributes": {str(place): {"DataType": "String", "StringValue": "x"} for place in range(11)}},
     "InvalidParameterValue"),
    ({"MessageSystemAttributes": {"Other": {"DataType": "String", "StringValue": "x"}}}, "InvalidParameterValue"),
])
def test_bad_sends_are_refused(call, members, code):
    queue = new_queue(call)
    good = {"MessageBody": "b", "MessageGroupId": "g", "MessageDeduplicationId": "d"}
    assert refusal(call, "SendMessage", QueueUrl=queue, **{**good, **members}) == code
    assert receive(call, queue) == []


def test_a_send_without_an_id_to_a_queue_that_makes_none_is_refused(call):
    for attributes in ({}, {"DeduplicationScope": "messageGroup"}):
        queue = new_queue(call, **attributes)
        assert refusal(call, "SendMessage", QueueUrl=queue, MessageBody="b", MessageGroupId="g") == "InvalidParameterValue"


@pytest.mark.parametrize("way", [ByJson, ByQuery])
@pytest.mark.parametrize("missing", ["QueueUrl", "MessageBody", "MessageGroupId"])
def test_missing_members_are_told(gateway, way, missing):
    call = way(gateway.url)
    members = {"QueueUrl": new_queue(call), "MessageBody": "b", "MessageGroupId": "g", "MessageDeduplicationId": "d"}
    del members[missing]
    assert refusal(call, "SendMessage", **members) == "MissingParameter"


def test_bad_receives_are_refused(call):
    queue = new_queue(call)
    for members in ({"MaxNumberOfMessages": 0}, {"MaxNumberOfMessages": 11}, {"VisibilityTimeout": 43_201},
                    {"VisibilityTimeout": -1}, {"WaitTimeSeconds": 21}, {"ReceiveRequestAttemptId": "a b"}):
        assert refusal(call, "ReceiveMessage", QueueUrl=queue, **members) == "InvalidParameterValue"
    assert refusal(call, "ReceiveMessage", QueueUrl=queue, AttributeNames=["Colour"]) == "InvalidAttributeName"


@pytest.mark.parametrize("spoil", [
    lambda handle: "", lambda handle: "x", lambda handle: "1-1-1", lambda handle: "ä" + handle,
    lambda handle: handle[:-1], lambda handle: handle + "A", lambda handle: handle.swapcase(),
])
def test_bad_handles_are_refused(call, spoil):
    queue = new_queue(call)
    send(call, queue, "d")
    (message,) = receive(call, queue)
    handle = spoil(message["ReceiptHandle"])
    expected = "ReceiptHandleIsInvalid" if handle else "MissingParameter"
    assert refusal(call, "DeleteMessage", QueueUrl=queue, ReceiptHandle=handle) == expected
    assert refusal(call, "ChangeMessageVisibility", QueueUrl=queue, ReceiptHandle=handle, VisibilityTimeout=1) == expected


def test_stale_handles_are_told_entry_by_entry(call, gateway):
    """One message has expired, one was handed out again, one is deleted, and one is in flight."""
    queue = new_queue(call, VisibilityTimeout="10")
    for place in range(4):
        send(call, queue, str(place), group=str(place))
    messages = receive(call, queue)
    handles = [message["ReceiptHandle"] for message in messages]
    call("DeleteMessage", QueueUrl=queue, ReceiptHandle=handles[2])
    call("ChangeMessageVisibility", QueueUrl=queue, ReceiptHandle=handles[3], VisibilityTimeout=100)
    call("ChangeMessageVisibility", QueueUrl=queue, ReceiptHandle=handles[1], VisibilityTimeout=0)
    assert len(receive(call, queue)) == 1
    gateway.set_clock(gateway.moment + 10_000)
    entries = [{"Id": str(place), "ReceiptHandle": handle} for place, handle in enumerate(handles)]
    changes = [{**entry, "VisibilityTimeout": 50} for entry in entries]
    result = call("ChangeMessageVisibilityBatch", QueueUrl=queue, Entries=changes)
    told = {one["Id"]: (one["Code"].removeprefix("AWS.SimpleQueueService."), one["Message"]) for one in result["Failed"]}
    assert [told[place][0] for place in "012"] == ["MessageNotInflight", "ReceiptHandleIsInvalid", "InvalidParameterValue"]
    assert told["2"][1] == (f"Value {handles[2]} for parameter ReceiptHandle is invalid. Reason: Message does not exist or is "
                            "not available for visibility timeout change.")
    result = call("DeleteMessageBatch", QueueUrl=queue, Entries=entries)
    assert [one["Id"] for one in result["Successful"]] == ["1", "2", "3"]
    (failed,) = result["Failed"]
    assert (failed["Id"], failed["Code"], failed["SenderFault"]) == ("0", "InvalidParameterValue", True)
    assert failed["Message"] == (f"Value {handles[0]} for parameter ReceiptHandle is invalid. Reason: The receipt handle has "
                                 "expired.")
    gateway.set_clock(gateway.moment + 100_000)
    assert [message["MessageId"] for message in receive(call, queue)] == [message["MessageId"] for message in messages[:2]]


def test_bad_timeouts_are_refused(call):
    queue = new_queue(call)
    send(call, queue, "d")
    (message,) = receive(call, queue)
    for timeout in (-1, 43_201):
        assert refusal(call, "ChangeMessageVisibility", QueueUrl=queue, ReceiptHandle=message["ReceiptHandle"],
                       VisibilityTimeout=timeout) == "InvalidParameterValue"


# Batches

def entry(place: int, **more) -> dict:
    return {"Id": str(place), "MessageBody": f"m{place}", "MessageGroupId": "g", "MessageDeduplicationId": str(place),
            **more}


def test_batches_are_answered_entry_by_entry(call):
    queue = new_queue(call)
    entries = [entry(place) for place in range(10)]
    entries[3]["MessageBody"] = "\x0b"
    entries[4]["MessageGroupId"] = "a b"
    result = call("SendMessageBatch", QueueUrl=queue, Entries=entries)
    assert [one["Id"] for one in result["Successful"]] == ["0", "1", "2", "5", "6", "7", "8", "9"]
    assert [(one["Id"], one["Code"], one["SenderFault"]) for one in result["Failed"]] == [
        ("3", "InvalidMessageContents", True), ("4", "InvalidParameterValue", True)]
    messages = receive(call, queue)
    assert [message["Body"] for message in messages] == ["m0", "m1", "m2", "m5", "m6", "m7", "m8", "m9"]
    changes = [{"Id": str(place), "ReceiptHandle": message["ReceiptHandle"], "VisibilityTimeout": 100}
               for place, message in enumerate(messages)]
    changes[0]["ReceiptHandle"] = "bad"
    changes[1]["VisibilityTimeout"] = 50_000
    result = call("ChangeMessageVisibilityBatch", QueueUrl=queue, Entries=changes)
    assert len(result["Successful"]) == 6
    assert [one["Code"] for one in result["Failed"]] == ["ReceiptHandleIsInvalid", "InvalidParameterValue"]
    deletions = [{"Id": str(place), "ReceiptHandle": message["ReceiptHandle"]} for place, message in enumerate(messages)]
    deletions[7]["ReceiptHandle"] = "bad"
    result = call("DeleteMessageBatch", QueueUrl=queue, Entries=deletions)
    assert [one["Id"] for one in result["Successful"]] == [str(place) for place in range(7)]
    assert [(one["Id"], one["Code"]) for one in result["Failed"]] == [("7", "ReceiptHandleIsInvalid")]


def test_an_entry_without_a_timeout_means_the_queues(gateway):
    """boto3 and the model let it be left out in a batch, and not in the single action."""
    for way in (ByJson, ByQuery):
        call = way(gateway.url)
        queue = new_queue(call, VisibilityTimeout="40")
        send(call, queue, "d")
        (message,) = receive(call, queue, VisibilityTimeout=5)
        entries = [{"Id": "1", "ReceiptHandle": message["ReceiptHandle"]}]
        assert len(call("ChangeMessageVisibilityBatch", QueueUrl=queue, Entries=entries)["Successful"]) == 1
        assert refusal(call, "ChangeMessageVisibility", QueueUrl=queue,
                       ReceiptHandle=message["ReceiptHandle"]) == "MissingParameter"
        gateway.set_clock(gateway.moment + 39_999)
        assert receive(call, queue) == []
        gateway.set_clock(gateway.moment + 1)
        assert len(receive(call, queue)) == 1


@pytest.mark.parametrize("entries, code", [
    ([], "EmptyBatchRequest"),
    ([entry(place) for place in range(11)], "TooManyEntriesInBatchRequest"),
    ([entry(1), entry(1)], "BatchEntryIdsNotDistinct"),
    ([entry(1, Id="a b")], "InvalidBatchEntryId"),
    ([entry(1, Id="x" * 81)], "InvalidBatchEntryId"),
    ([entry(place, MessageBody="x" * 524_289) for place in range(2)], "BatchRequestTooLong"),
])
def test_bad_batches_are_refused_whole(call, entries, code):
    queue = new_queue(call)
    assert refusal(call, "SendMessageBatch", QueueUrl=queue, Entries=entries) == code
    assert receive(call, queue) == []
    if code == "BatchRequestTooLong":
        return
    others = [{"Id": one["Id"], "ReceiptHandle": "x", "VisibilityTimeout": 1} for one in entries]
    assert refusal(call, "ChangeMessageVisibilityBatch", QueueUrl=queue, Entries=others) == code
    for one in others:
        del one["VisibilityTimeout"]
    assert refusal(call, "DeleteMessageBatch", QueueUrl=queue, Entries=others) == code


# Waiting

def test_a_long_poll_ends_when_its_time_is_up(call):
    queue = new_queue(call)
    start = time.monotonic()
    assert receive(call, queue, WaitTimeSeconds=1) == []
    # Long before the twenty seconds that a poll may take.
    assert 0.9 < time.monotonic() - start < 15


def waits_for(gateway, call, queue: str, happens, seconds: int = 20) -> list[dict]:
    with ThreadPoolExecutor(1) as pool:
        start = time.monotonic()
        waiting = pool.submit(receive, call, queue, WaitTimeSeconds=seconds)
        polls(gateway, 1)
        assert not waiting.done()
        happens()
        messages = waiting.result()
        # It hasn't waited for its time.
        assert time.monotonic() - start < seconds - 5
        return messages


def test_a_long_poll_ends_by_a_send(call, gateway):
    queue = new_queue(call)
    assert len(waits_for(gateway, call, queue, lambda: send(call, queue, "d"))) == 1


def test_a_long_poll_ends_by_a_delete(call, gateway):
    queue = new_queue(call)
    send(call, queue, "1")
    send(call, queue, "2")
    (first,) = receive(call, queue, MaxNumberOfMessages=1)
    (second,) = waits_for(
        gateway, call, queue, lambda: call("DeleteMessage", QueueUrl=queue, ReceiptHandle=first["ReceiptHandle"]))
    assert second["Body"] == "b"


def test_a_long_poll_ends_by_a_change(call, gateway):
    queue = new_queue(call)
    send(call, queue, "1")
    (first,) = receive(call, queue)
    messages = waits_for(gateway, call, queue, lambda: call(
        "ChangeMessageVisibility", QueueUrl=queue, ReceiptHandle=first["ReceiptHandle"], VisibilityTimeout=0))
    assert len(messages) == 1


def test_a_long_poll_ends_by_the_end_of_a_timeout(call, gateway):
    queue = new_queue(call, VisibilityTimeout="30")
    send(call, queue, "1")
    assert len(receive(call, queue)) == 1
    assert len(waits_for(gateway, call, queue, lambda: gateway.set_clock(gateway.moment + 30_000))) == 1


def test_a_long_poll_ends_by_the_removal_of_the_queue(call, gateway):
    queue = new_queue(call)
    with pytest.raises(Refused, match="NonExistentQueue"):
        waits_for(gateway, call, queue, lambda: call("DeleteQueue", QueueUrl=queue))


def test_who_waits_longest_is_served_first(call, gateway):
    queue = new_queue(call)
    with ThreadPoolExecutor(4) as pool:
        waiting = []
        for place in range(4):
            own = type(call)(gateway.client() if isinstance(call, ByBoto3) else gateway.url)
            waiting.append(pool.submit(receive, own, queue, WaitTimeSeconds=20))
            polls(gateway, place + 1)
        for place in range(4):
            send(call, queue, str(place), group=str(place), body=str(place))
        assert [[message["Body"] for message in one.result()] for one in waiting] == [["0"], ["1"], ["2"], ["3"]]


def test_a_client_that_has_gone_is_handed_nothing(gateway):
    call = ByJson(gateway.url)
    queue = new_queue(call)
    impatient = boto3_client(gateway.url, read_timeout=3)
    with ThreadPoolExecutor(1) as pool:
        waiting = pool.submit(impatient.receive_message, QueueUrl=queue, WaitTimeSeconds=20)
        # Otherwise the gateway might read it only once the client has gone.
        polls(gateway, 1)
        with pytest.raises(Exception, match="timed out|timeout"):
            waiting.result()
    polls(gateway, 0)
    send(call, queue, "1")
    (message,) = receive(call, queue, AttributeNames=["All"])
    assert message["Attributes"]["ApproximateReceiveCount"] == "1"


def test_the_waiting_time_of_the_queue(call, gateway):
    queue = new_queue(call, ReceiveMessageWaitTimeSeconds="20")
    with ThreadPoolExecutor(1) as pool:
        waiting = pool.submit(receive, call, queue)
        polls(gateway, 1)
        send(call, queue, "1")
        assert len(waiting.result()) == 1
    assert receive(call, queue, WaitTimeSeconds=0) == []


# The wire

def test_the_client_has_the_exceptions_of_its_model(gateway):
    client = gateway.client()
    queue = new_queue(ByBoto3(client))
    with pytest.raises(client.exceptions.QueueDoesNotExist):
        client.get_queue_url(QueueName="none.fifo")
    with pytest.raises(client.exceptions.ReceiptHandleIsInvalid):
        client.delete_message(QueueUrl=queue, ReceiptHandle="x")
    with pytest.raises(client.exceptions.EmptyBatchRequest):
        client.send_message_batch(QueueUrl=queue, Entries=[])


def test_unknown_actions_and_broken_requests_are_refused(gateway):
    for call in (ByJson(gateway.url), ByQuery(gateway.url)):
        assert refusal(call, "MakeCoffee") == "InvalidAction"
    headers = {"X-Amz-Target": "AmazonSQS.ListQueues"}
    for body in (b"{", b"[]", b"\xff", b"[" * 100_000):
        status, got, answer = post(gateway.url + "/", body, headers)
        assert status == 400 and got["x-amzn-query-error"] == "SerializationException;Sender", body[:10]
        assert json.loads(answer)["__type"] == "com.amazon.coral.service#SerializationException"
    for body in (b"Action", b"Action=ListQueues&QueueNamePrefix=%ff", b"Action=X&Attribute=1&Attribute.1.Name=a"):
        status, _, answer = post(gateway.url + "/", body, {"Content-Type": "application/x-www-form-urlencoded"})
        assert status == 400 and b"<ErrorResponse" in answer, body
    status, _, answer = post(gateway.url + "/", b"", {})
    assert status == 400 and b"MissingParameter" in answer


def test_wrong_types_are_refused(gateway):
    call = ByJson(gateway.url)
    queue = new_queue(call)
    for members in ({"MessageBody": 1}, {"MessageAttributes": []}, {"MessageAttributes": {"a": 1}},
                    {"MessageBody": "\ud800"}, {"MessageGroupId": ["g"]}):
        good = {"MessageBody": "b", "MessageGroupId": "g", "MessageDeduplicationId": "d"}
        assert refusal(call, "SendMessage", QueueUrl=queue, **{**good, **members}) in (
            "SerializationException", "InvalidMessageContents")
    for action, members in {
        "ReceiveMessage": {"MaxNumberOfMessages": True},
        "SendMessageBatch": {"Entries": ["x"]},
        "DeleteMessageBatch": {"Entries": [{"Id": "1", "ReceiptHandle": 1}]},
        "TagQueue": {"Tags": {"\ud800": "x"}},
        "UntagQueue": {"TagKeys": ["\ud800"]},
    }.items():
        assert refusal(call, action, QueueUrl=queue, **members) == "SerializationException"
    assert refusal(call, "ReceiveMessage", QueueUrl=queue, MaxNumberOfMessages=1.5) == "InvalidParameterValue"
    assert receive(call, queue) == []


def test_queues_go_by_their_names(gateway):
    call = ByJson(gateway.url)
    name = new_queue(call).rsplit("/", 1)[-1]
    send(call, name, "1")
    send(call, f"https://sqs.example.org/1/{name}", "2")
    assert len(receive(call, name)) == 2
    headers = {"X-Amz-Target": "AmazonSQS.ListQueueTags"}
    assert post(f"{gateway.url}/000000000000/{name}", b"{}", headers)[0] == 200


# Lost answers

def again(gateway, invocation: str, attempt: int, action: str, **members) -> tuple[int, bytes]:
    headers = {"X-Amz-Target": f"AmazonSQS.{action}", "amz-sdk-invocation-id": invocation,
               "amz-sdk-request": f"attempt={attempt}; max=5"}
    status, _, body = post(gateway.url + "/", json.dumps(members).encode(), headers)
    return status, body


def test_a_lost_answer_is_given_once_more(gateway):
    call = ByJson(gateway.url)
    queue = new_queue(call)
    send(call, queue, "1")
    send(call, queue, "2")
    first = again(gateway, f"{queue}-a", 1, "ReceiveMessage", QueueUrl=queue, MaxNumberOfMessages=1)
    assert again(gateway, f"{queue}-a", 2, "ReceiveMessage", QueueUrl=queue, MaxNumberOfMessages=1) == first
    assert b"ReceiptHandle" in first[1]
    assert b"Messages" not in again(gateway, f"{queue}-b", 2, "ReceiveMessage", QueueUrl=queue)[1]
    removed = again(gateway, f"{queue}-a", 1, "DeleteQueue", QueueUrl=queue)
    assert removed[0] == 200 and again(gateway, f"{queue}-a", 3, "DeleteQueue", QueueUrl=queue) == removed
    assert again(gateway, f"{queue}-a", 1, "DeleteQueue", QueueUrl=queue)[0] == 400


def test_a_long_poll_that_is_asked_again_goes_on(gateway):
    call = ByJson(gateway.url)
    queue = new_queue(call)
    with ThreadPoolExecutor(2) as pool:
        first = pool.submit(again, gateway, queue, 1, "ReceiveMessage", QueueUrl=queue, WaitTimeSeconds=20)
        polls(gateway, 1)
        second = pool.submit(again, gateway, queue, 2, "ReceiveMessage", QueueUrl=queue, WaitTimeSeconds=20)
        pass_time(0.2, "it goes on with the first, so nothing counts it")
        send(call, queue, "1")
        assert first.result() == second.result() and b"ReceiptHandle" in first.result()[1]
    # An empty answer isn't kept: who asks again waits again.
    send(call, queue, "2", group="other")
    assert b"ReceiptHandle" in again(gateway, f"{queue}-b", 2, "ReceiveMessage", QueueUrl=queue)[1]
