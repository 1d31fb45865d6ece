"""What clients say with characters that XML has not: every answer can be read, and nothing is lost by it."""

import json

import pytest

from rules import new_queue
from started import ByJson, ByQuery, Refused

HOSTILE = "\x01\x1f\ufffe\uffff"


@pytest.fixture
def by_query(gateway) -> ByQuery:
    return ByQuery(gateway.url)


@pytest.mark.parametrize("size", [1, 300_000])
@pytest.mark.parametrize("data_type", ["String.\ufffe", "Number.\uffff", "Binary.\x01"])
def test_types_of_attributes_are_tested_whatever_the_size(gateway, by_query, data_type, size):
    queue = new_queue(by_query)
    value = {"BinaryValue": b"1"} if data_type.startswith("Binary") else {"StringValue": "1"}
    members = {"QueueUrl": queue, "MessageBody": "b" * size, "MessageGroupId": "g",
               "MessageAttributes": {"a": {"DataType": data_type, **value}}}
    for call in (by_query, ByJson(gateway.url)):
        with pytest.raises(Refused) as refusal:
            call("SendMessage", **members, MessageDeduplicationId="1")
        assert refusal.value.code == "InvalidParameterValue"
    by_query("SendMessage", QueueUrl=queue, MessageBody="good", MessageGroupId="g", MessageDeduplicationId="2")
    (message,) = by_query("ReceiveMessage", QueueUrl=queue)["Messages"]
    assert message["Body"] == "good"


def test_the_answer_to_a_batch_is_read_whatever_its_entries_say(by_query):
    queue = new_queue(by_query)
    good = {"MessageBody": "b", "MessageGroupId": "g"}
    entries = [{"Id": "good", "MessageDeduplicationId": "1", **good},
               {"Id": "bad", "MessageDeduplicationId": "2", "DelaySeconds": HOSTILE, **good}]
    told = by_query("SendMessageBatch", QueueUrl=queue, Entries=entries)
    assert [done["Id"] for done in told["Successful"]] == ["good"]
    assert [failed["Id"] for failed in told["Failed"]] == ["bad"] and "\ufffd" in told["Failed"][0]["Message"]


@pytest.mark.parametrize("name, value", [
    ("KmsMasterKeyId", HOSTILE), ("KmsMasterKeyId", "alias/\x01"),
    ("Policy", json.dumps({"Id": HOSTILE, "Statement": {}}, ensure_ascii=False).replace("\\u0001\\u001f", "")),
])
def test_attributes_that_xml_cannot_say_are_refused(gateway, by_query, name, value):
    queue = new_queue(by_query)
    with pytest.raises(Refused) as refusal:
        ByJson(gateway.url)("SetQueueAttributes", QueueUrl=queue, Attributes={name: value})
    assert refusal.value.code == "InvalidAttributeValue"
    assert name not in by_query("GetQueueAttributes", QueueUrl=queue, AttributeNames=["All"])["Attributes"]
