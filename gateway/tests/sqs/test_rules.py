"""The rules of FIFO queues, each on the gateway, and on moto where it is installed.

Where moto's rule is another one, the test is marked `moto_differs`, and fails if moto passes it.
"""

import hashlib

import pytest

differs = pytest.mark.moto_differs


@differs
def test_a_deleted_message_is_not_sent_again_within_five_minutes(rules):
    queue = rules.queue()
    first = rules.send(queue, "d")
    rules.delete(queue, rules.receive(queue)[0])
    rules.move(299_999)
    again = rules.send(queue, "d")
    assert rules.receive(queue) == []
    assert again["SequenceNumber"] == first["SequenceNumber"]
    rules.move(1)
    assert rules.send(queue, "d")["SequenceNumber"] > first["SequenceNumber"]
    assert len(rules.receive(queue)) == 1


def test_an_id_is_free_after_five_minutes(rules):
    queue = rules.queue(VisibilityTimeout="0")
    rules.send(queue, "d", body="first")
    rules.move(299_999)
    rules.send(queue, "d", body="second")
    assert rules.bodies(queue) == ["first"]
    rules.move(1)
    rules.send(queue, "d", body="third")
    assert sorted(rules.bodies(queue)) == ["first", "third"]


@differs
def test_five_minutes_are_not_renewed_and_a_repeat_is_told_the_first(rules):
    queue = rules.queue()
    first = rules.send(queue, "d", body="one")
    rules.move(200_000)
    second = rules.send(queue, "d", body="two")
    assert second["SequenceNumber"] == first["SequenceNumber"]
    assert second["MessageId"] == first["MessageId"]
    assert second["MD5OfMessageBody"] == hashlib.md5(b"two").hexdigest()
    rules.move(100_000)
    assert rules.send(queue, "d", body="three")["SequenceNumber"] > first["SequenceNumber"]


def test_one_id_in_two_groups_is_one_message(rules):
    queue = rules.queue()
    rules.send(queue, "d", group="a")
    rules.send(queue, "d", group="b")
    assert len(rules.receive(queue)) == 1


def test_an_id_made_of_the_body_and_the_same_one_given(rules):
    queue = rules.queue(ContentBasedDeduplication="true")
    for _ in range(2):
        rules.call("SendMessage", QueueUrl=queue, MessageBody="hello", MessageGroupId="g")
    rules.send(queue, hashlib.sha256(b"hello").hexdigest(), body="hello")
    rules.call("SendMessage", QueueUrl=queue, MessageBody="other", MessageGroupId="g")
    assert rules.bodies(queue) == ["hello", "other"]


@differs
def test_sequence_numbers_rise(rules):
    queue = rules.queue()
    numbers = [rules.send(queue, f"d{place}")["SequenceNumber"] for place in range(20)]
    assert numbers == sorted(numbers) and len(set(numbers)) == 20 and all(len(number) == 20 for number in numbers)


def test_a_group_waits_while_one_of_it_is_in_flight(rules):
    queue = rules.queue()
    for dedup, group in [("1", "a"), ("2", "a"), ("3", "b")]:
        rules.send(queue, dedup, group=group, body=dedup)
    first = rules.receive(queue, 1)
    assert [message["Body"] for message in first] == ["1"]
    assert rules.bodies(queue) == ["3"]
    assert rules.receive(queue) == []
    rules.delete(queue, first[0])
    assert rules.bodies(queue) == ["2"]


def test_a_group_waits_after_one_of_two_is_deleted(rules):
    queue = rules.queue()
    for place in range(3):
        rules.send(queue, str(place), body=str(place))
    first, second = rules.receive(queue, 2)
    rules.delete(queue, first)
    assert rules.receive(queue) == []
    rules.delete(queue, second)
    assert rules.bodies(queue) == ["2"]


@differs
def test_three_of_a_group_that_expire_come_again_in_order(rules):
    queue = rules.queue(VisibilityTimeout="10")
    for place in range(3):
        rules.send(queue, str(place), body=f"m{place}")
    assert rules.bodies(queue) == ["m0", "m1", "m2"]
    rules.move(10_001)
    assert rules.bodies(queue) == ["m0", "m1", "m2"]


@differs
def test_two_of_three_expire_and_all_come_in_order(rules):
    queue = rules.queue(VisibilityTimeout="10")
    for place in range(3):
        rules.send(queue, str(place), body=f"m{place}")
    assert rules.bodies(queue, 2) == ["m0", "m1"]
    rules.move(10_001)
    assert rules.bodies(queue) == ["m0", "m1", "m2"]


def test_a_timeout_of_nothing_hides_nothing(rules):
    queue = rules.queue()
    rules.send(queue, "1", body="m1")
    rules.send(queue, "2", body="m2")
    assert rules.bodies(queue, 1, VisibilityTimeout=0) == ["m1"]
    assert rules.bodies(queue, 1, VisibilityTimeout=0) == ["m1"]
    assert rules.bodies(queue) == ["m1", "m2"]


@differs
def test_two_that_are_given_back_come_in_order(rules):
    queue = rules.queue()
    rules.send(queue, "1", body="m1")
    rules.send(queue, "2", body="m2")
    first, second = rules.receive(queue)
    rules.change(queue, first, 0)
    rules.change(queue, second, 0)
    assert rules.bodies(queue) == ["m1", "m2"]


def test_the_first_of_two_in_flight_is_given_back(rules):
    queue = rules.queue()
    rules.send(queue, "1")
    rules.send(queue, "2")
    first, _ = rules.receive(queue)
    rules.change(queue, first, 0)
    assert rules.receive(queue) == []


@differs
def test_groups_come_one_after_the_other(rules):
    queue = rules.queue()
    for place in range(14):
        rules.send(queue, str(place), group="ab"[place % 2], body=f"{'ab'[place % 2]}{place // 2}")
    expected = [f"a{place}" for place in range(7)] + [f"b{place}" for place in range(3)]
    assert rules.bodies(queue) == expected
    assert rules.bodies(queue) == []


@differs
def test_a_message_is_open_exactly_at_the_end_of_its_timeout(rules):
    queue = rules.queue(VisibilityTimeout="10")
    rules.send(queue, "1")
    assert len(rules.receive(queue)) == 1
    rules.move(9_999)
    assert rules.receive(queue) == []
    rules.move(1)
    assert len(rules.receive(queue)) == 1


@differs
def test_an_old_receipt_deletes_nothing(rules):
    queue = rules.queue(VisibilityTimeout="10")
    rules.send(queue, "1")
    (old,) = rules.receive(queue)
    rules.move(10_001)
    assert len(rules.receive(queue)) == 1
    rules.delete(queue, old)
    rules.move(10_001)
    assert len(rules.receive(queue)) == 1


def test_deleting_twice_is_good(rules):
    queue = rules.queue()
    rules.send(queue, "1")
    (message,) = rules.receive(queue)
    rules.delete(queue, message)
    rules.delete(queue, message)
    rules.move(50_000)
    rules.delete(queue, message)
    assert rules.receive(queue) == []


@differs
@pytest.mark.parametrize("late", [0, 1, 100_000])
def test_a_delete_after_the_timeout_is_refused(rules, late):
    queue = rules.queue(VisibilityTimeout="10")
    rules.send(queue, "1")
    (message,) = rules.receive(queue)
    rules.move(10_000 + late)
    rules.refused("InvalidParameterValue", lambda: rules.delete(queue, message))
    (again,) = rules.receive(queue)
    rules.delete(queue, message)
    rules.move(9_999)
    rules.delete(queue, again)
    rules.move(10_001)
    assert rules.receive(queue) == []


@differs
def test_what_was_given_back_is_not_deleted(rules):
    queue = rules.queue()
    rules.send(queue, "1")
    (message,) = rules.receive(queue)
    rules.change(queue, message, 0)
    rules.refused("InvalidParameterValue", lambda: rules.delete(queue, message))
    assert len(rules.receive(queue)) == 1


def test_a_purge_deletes_what_has_expired(rules):
    queue = rules.queue(VisibilityTimeout="10")
    for place in range(3):
        rules.send(queue, str(place), group=str(place))
    assert len(rules.receive(queue, 2)) == 2
    rules.move(10_001)
    rules.call("PurgeQueue", QueueUrl=queue)
    assert rules.receive(queue) == []


@differs
def test_a_change_after_the_timeout_is_refused(rules):
    queue = rules.queue(VisibilityTimeout="10")
    rules.send(queue, "1")
    (message,) = rules.receive(queue)
    rules.move(10_001)
    rules.refused("MessageNotInflight", lambda: rules.change(queue, message, 20))


@differs
def test_a_change_of_a_deleted_message_is_refused(rules):
    queue = rules.queue()
    rules.send(queue, "1")
    (message,) = rules.receive(queue)
    rules.delete(queue, message)
    rules.refused("InvalidParameterValue", lambda: rules.change(queue, message, 20))


@differs
def test_a_change_by_an_old_receipt_is_refused(rules):
    queue = rules.queue(VisibilityTimeout="10")
    rules.send(queue, "1")
    (old,) = rules.receive(queue)
    rules.move(10_001)
    assert len(rules.receive(queue)) == 1
    rules.refused("ReceiptHandleIsInvalid", lambda: rules.change(queue, old, 20))


def test_a_change_puts_the_end_off(rules):
    queue = rules.queue(VisibilityTimeout="10")
    rules.send(queue, "1")
    (message,) = rules.receive(queue)
    rules.move(5_000)
    rules.change(queue, message, 20)
    rules.move(19_999)
    assert rules.receive(queue) == []
    rules.move(2)
    assert len(rules.receive(queue)) == 1


@differs
def test_twelve_hours_count_from_the_last_handing(rules):
    queue = rules.queue(VisibilityTimeout="100")
    rules.send(queue, "1")
    rules.move(5_000)
    (message,) = rules.receive(queue)
    rules.move(1_000)
    rules.refused("InvalidParameterValue", lambda: rules.change(queue, message, 43_200))
    rules.change(queue, message, 43_199)


@differs
def test_an_attempt_is_given_the_same_once_more(rules):
    queue = rules.queue(VisibilityTimeout="10")
    rules.send(queue, "1")
    rules.send(queue, "2")
    first = rules.receive(queue, ReceiveRequestAttemptId="x")
    assert len(first) == 2
    rules.move(6_000)
    again = rules.receive(queue, ReceiveRequestAttemptId="x")
    assert [m["ReceiptHandle"] for m in again] == [m["ReceiptHandle"] for m in first]
    rules.move(6_000)
    assert rules.receive(queue) == [], "the timeout begins anew"
    rules.delete(queue, first[0])
    assert rules.receive(queue, ReceiveRequestAttemptId="x") == []


@differs
def test_an_attempt_whose_message_was_changed_is_a_new_receive(rules):
    queue = rules.queue(VisibilityTimeout="10")
    rules.send(queue, "1")
    (first,) = rules.receive(queue, ReceiveRequestAttemptId="x")
    rules.change(queue, first, 20)
    assert rules.receive(queue, ReceiveRequestAttemptId="x") == []
    rules.change(queue, first, 0)
    (again,) = rules.receive(queue, ReceiveRequestAttemptId="x")
    assert again["ReceiptHandle"] != first["ReceiptHandle"]


def test_a_queue_is_created_again_with_the_same_attributes_only(rules):
    queue = rules.queue(VisibilityTimeout="10")
    name = queue.rsplit("/", 1)[-1]

    def create(**attributes: str):
        return rules.call("CreateQueue", QueueName=name, Attributes={"FifoQueue": "true", **attributes})["QueueUrl"]

    assert create() == queue and create(VisibilityTimeout="10") == queue
    rules.refused("QueueAlreadyExists", lambda: create(VisibilityTimeout="11"))


@differs
def test_a_removed_queue_is_free_after_a_minute_and_empty(rules):
    queue = rules.queue()
    name = queue.rsplit("/", 1)[-1]
    rules.send(queue, "1")
    (message,) = rules.receive(queue)
    rules.call("DeleteQueue", QueueUrl=queue)
    rules.refused("NonExistentQueue", lambda: rules.send(queue, "2"))

    def create():
        return rules.call("CreateQueue", QueueName=name, Attributes={"FifoQueue": "true"})["QueueUrl"]

    rules.move(59_999)
    rules.refused("QueueDeletedRecently", create)
    rules.move(1)
    assert create() == queue
    assert rules.receive(queue) == []
    rules.refused("ReceiptHandleIsInvalid", lambda: rules.delete(queue, message))
    rules.send(queue, "1")
    assert len(rules.receive(queue)) == 1


@differs
def test_a_purge_empties_keeps_ids_and_is_refused_for_a_minute(rules):
    queue = rules.queue()
    for place in range(25):
        rules.send(queue, str(place), group=f"g{place % 3}")
    assert len(rules.receive(queue, 2)) == 2
    rules.call("PurgeQueue", QueueUrl=queue)
    rules.send(queue, "3")
    rules.move(59_999)
    assert rules.receive(queue) == []
    rules.refused("PurgeQueueInProgress", lambda: rules.call("PurgeQueue", QueueUrl=queue))
    rules.move(1)
    rules.call("PurgeQueue", QueueUrl=queue)


@differs
@pytest.mark.parametrize("body", ["\x0b", "a\ufffe", "\uffff"])
def test_bodies_of_other_characters_are_refused(rules, body):
    queue = rules.queue()
    rules.refused("InvalidMessageContents", lambda: rules.send(queue, "1", body=body))


@differs
@pytest.mark.parametrize("group", ["a b", "x" * 129, "ä"])
def test_bad_groups_and_ids_are_refused(rules, group):
    queue = rules.queue()
    rules.refused("InvalidParameterValue", lambda: rules.send(queue, "1", group=group))
    rules.refused("InvalidParameterValue", lambda: rules.send(queue, group))


def test_a_batch_with_one_id_twice_is_one_message(rules):
    queue = rules.queue()
    entries = [{"Id": str(place), "MessageBody": f"m{place}", "MessageGroupId": "g", "MessageDeduplicationId": "d"}
               for place in range(2)]
    result = rules.call("SendMessageBatch", QueueUrl=queue, Entries=entries)
    assert len(result["Successful"]) == 2 and not result.get("Failed")
    assert rules.bodies(queue) == ["m0"]


def test_sizes_of_receives_are_tested(rules):
    queue = rules.queue()
    for size in (0, 11):
        rules.refused("InvalidParameterValue", lambda: rules.receive(queue, size))


def test_another_queues_handle_is_refused(rules):
    one, other = rules.queue(), rules.queue()
    rules.send(one, "1")
    rules.send(other, "1")
    (message,), _ = rules.receive(one), rules.receive(other)
    rules.refused("ReceiptHandleIsInvalid", lambda: rules.delete(other, message))


@differs
def test_ids_by_group(rules):
    queue = rules.queue(DeduplicationScope="messageGroup")
    rules.send(queue, "d", group="a", body="in a")
    rules.send(queue, "d", group="b", body="in b")
    rules.send(queue, "d", group="a", body="in a again")
    messages = rules.receive(queue, AttributeNames=["All"])
    assert sorted(message["Body"] for message in messages) == ["in a", "in b"]
    assert {message["Attributes"]["MessageDeduplicationId"] for message in messages} == {"d"}


def test_counts_follow_the_clock(rules):
    queue = rules.queue(VisibilityTimeout="10")
    for place in range(3):
        rules.send(queue, str(place), group=str(place))
    rules.receive(queue, 2)

    def counts() -> list[str]:
        names = ["ApproximateNumberOfMessages", "ApproximateNumberOfMessagesNotVisible",
                 "ApproximateNumberOfMessagesDelayed"]
        told = rules.call("GetQueueAttributes", QueueUrl=queue, AttributeNames=names)["Attributes"]
        return [told[name] for name in names]

    assert counts() == ["1", "2", "0"]
    rules.move(10_001)
    assert counts() == ["3", "0", "0"]
