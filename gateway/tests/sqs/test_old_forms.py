"""Forms of requests that older clients, other servers and AWS's own examples have."""

import json
import re
import urllib.parse
import urllib.request
import xml.etree.ElementTree

import boto3
import pytest

from rules import new_queue
from started import ByJson, Refused, post


def form(url: str, **fields: str) -> tuple[int, xml.etree.ElementTree.Element]:
    body = urllib.parse.urlencode({name.replace("__", "."): value for name, value in fields.items()}).encode()
    status, got, answer = post(url, body, {"Content-Type": "application/x-www-form-urlencoded"})
    assert got["content-type"] == "text/xml"
    return status, xml.etree.ElementTree.fromstring(re.sub(rb' xmlns="[^"]*"', b"", answer))


@pytest.fixture
def queue(gateway) -> str:
    return new_queue(ByJson(gateway.url))


@pytest.mark.parametrize("path", [
    "000000000000/{}", "000000000000/{}/", "us-east-1/000000000000/{}", "us-east-1/000000000000/{}/", "queue/{}", "queue/{}/",
    "queue/us-east-1/000000000000/{}",
])
def test_a_queue_goes_by_each_form_of_its_url(gateway, queue, path):
    url = f"{gateway.url}/{path.format(queue.rsplit('/', 1)[-1])}"
    assert form(url, Action="SendMessage", MessageBody="b", MessageGroupId="g", MessageDeduplicationId="d")[0] == 200
    status, told = form(url, Action="ReceiveMessage", Version="2009-02-01")
    assert status == 200 and told.findtext("ReceiveMessageResult/Message/Body") == "b"
    with urllib.request.urlopen(f"{url}?Action=GetQueueAttributes&AttributeName=QueueArn") as answer:
        assert b"<Name>QueueArn</Name>" in answer.read()
    call = ByJson(gateway.url)
    assert call("ListQueueTags", QueueUrl=url) == {"Tags": {}} or call("ListQueueTags", QueueUrl=url) == {}
    status, _, body = post(url, b'{"AttributeNames":["QueueArn"]}', {"X-Amz-Target": "AmazonSQS.GetQueueAttributes"})
    assert status == 200 and json.loads(body)["Attributes"]["QueueArn"].endswith(queue.rsplit("/", 1)[-1])


def test_numbers_may_be_left_out(queue):
    assert form(queue, Action="SetQueueAttributes", Attribute__Name="VisibilityTimeout", Attribute__Value="35")[0] == 200
    status, told = form(queue, Action="GetQueueAttributes", AttributeName="All")
    attributes = {one.findtext("Name"): one.findtext("Value") for one in told.iter("Attribute")}
    assert status == 200 and attributes["VisibilityTimeout"] == "35" and len(attributes) > 10
    assert form(queue, Action="TagQueue", Tag__Key="a", Tag__Value="b")[0] == 200
    assert form(queue, Action="ListQueueTags")[1].findtext("ListQueueTagsResult/Tag/Value") == "b"
    assert form(queue, Action="UntagQueue", TagKey="a")[0] == 200
    sent = form(queue, Action="SendMessage", MessageBody="b", MessageGroupId="g", MessageDeduplicationId="d",
                MessageAttribute__Name="m", MessageAttribute__Value__DataType="String",
                MessageAttribute__Value__StringValue="x")
    assert sent[0] == 200 and sent[1].findtext("SendMessageResult/MD5OfMessageAttributes")
    told = form(queue, Action="ReceiveMessage", AttributeName="MessageGroupId", MessageAttributeName="m")[1]
    assert told.findtext("ReceiveMessageResult/Message/Attribute/Value") == "g"
    assert told.findtext("ReceiveMessageResult/Message/MessageAttribute/Value/StringValue") == "x"


def test_pairs_without_numbers_stand_alone(queue):
    status, told = form(queue, Action="TagQueue", Tag__Key="a", Tag__Value="b", Tag__1__Key="c", Tag__1__Value="d")
    assert (status, told.findtext("Error/Code")) == (400, "InvalidParameterValue")
    assert form(queue, Action="ListQueueTags")[1].find("ListQueueTagsResult/Tag") is None


@pytest.mark.parametrize("url", [
    "http://localhost", "http://localhost/", "https://sqs.us-east-1.amazonaws.com/000000000000/a b.fifo", "/", "a.fifo?x", "a:b",
    "http://q.fifo",
])
def test_a_url_of_no_queue_is_an_invalid_address(gateway, call, url):
    if not isinstance(call, ByJson):
        status, told = form(gateway.url, Action="DeleteQueue", QueueUrl=url)
        assert (status, told.findtext("Error/Code")) == (404, "InvalidAddress")
        return
    with pytest.raises(Refused) as refused:
        call("DeleteQueue", QueueUrl=url)
    assert (refused.value.code, refused.value.status, refused.value.shape) == ("InvalidAddress", 404, "InvalidAddress")


def test_who_asks_is_told(gateway):
    """By the real client, and by the form in which Terraform asks."""
    sts = boto3.client("sts", endpoint_url=gateway.url, region_name="us-east-1", aws_access_key_id="any",
                       aws_secret_access_key="any")
    told = sts.get_caller_identity()
    assert (told["Account"], told["UserId"], told["Arn"]) == (
        "000000000000", "000000000000", "arn:aws:iam::000000000000:root")
    status, got, answer = post(gateway.url + "/", b"Action=GetCallerIdentity&Version=2011-06-15", {})
    assert status == 200 and got["content-type"] == "text/xml"
    root = xml.etree.ElementTree.fromstring(answer)
    space = "{https://sts.amazonaws.com/doc/2011-06-15/}"
    assert root.tag == f"{space}GetCallerIdentityResponse"
    assert root.findtext(f"{space}GetCallerIdentityResult/{space}Account") == "000000000000"
    assert root.findtext(f"{space}ResponseMetadata/{space}RequestId")
    with pytest.raises(Refused, match="InvalidAction"):
        ByJson(gateway.url)("GetCallerIdentity")


SEND = "Action=SendMessage&MessageBody={}&MessageGroupId=g&MessageDeduplicationId=d"


@pytest.mark.parametrize("before, body", [
    ("", SEND.format("%C3%A4")), ("", SEND.format("\u00e4")), ("", SEND.format("%C3%A4") + "&"), ("", "&" + SEND.format("%C3%A4") + "&foo"),
    ("?Action=SendMessage", SEND.format("\u00e4").removeprefix("Action=SendMessage&")),
    ("?Action=DeleteQueue&MessageBody=b", SEND.format("\u00e4")),
])
def test_forms_are_read_as_other_servers_read_them(queue, before, body):
    """As curl writes them: with UTF-8 as it stands, an & at the end, names without a value, and fields in the URL."""
    status, _, answer = post(queue + before, body.encode(), {"Content-Type": "application/x-www-form-urlencoded"})
    assert status == 200, answer
    assert form(queue, Action="ReceiveMessage")[1].findtext("ReceiveMessageResult/Message/Body") == "\u00e4"


def test_bytes_that_are_no_utf_8_are_told_as_that(queue):
    for body in (SEND.format("%ff").encode(), SEND.format("x").encode() + b"&a=\xff"):
        status, _, answer = post(queue, body, {"Content-Type": "application/x-www-form-urlencoded"})
        assert status == 400 and b"<Code>InvalidParameterValue</Code>" in answer and b"no UTF-8" in answer


@pytest.mark.parametrize("token", ["\u00e4", "q", "AAAA", "QUFBQWFhYWE"])
def test_a_token_that_no_list_gave_is_refused(gateway, queue, token):
    for action, more in (("ListQueues", {}), ("ListDeadLetterSourceQueues", {"QueueUrl": queue})):
        with pytest.raises(Refused, match="InvalidParameterValue 400"):
            ByJson(gateway.url)(action, NextToken=token, MaxResults=2, **more)


def test_an_attribute_with_two_values_is_refused(gateway, queue):
    both = {"DataType": "String", "StringValue": "x", "BinaryValue": b"y"}
    send = {"QueueUrl": queue, "MessageBody": "b", "MessageGroupId": "g", "MessageDeduplicationId": "d"}
    with pytest.raises(Refused, match="InvalidParameterValue 400"):
        ByJson(gateway.url)("SendMessage", **send, MessageAttributes={"a": both})
    with pytest.raises(Refused, match="InvalidParameterValue 400"):
        ByJson(gateway.url)("SendMessage", **send, MessageSystemAttributes={"AWSTraceHeader": both})
    assert ByJson(gateway.url)("ReceiveMessage", QueueUrl=queue).get("Messages") is None
