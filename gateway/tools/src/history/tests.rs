//! Histories by hand: what the rules allow, and the first answer that they don't.

use serde_json::{json, Value};

use super::{check, Verdict};

/// A history that is written by a test.
#[derive(Default)]
struct History {
    lines: Vec<Value>,
    at: u64,
}

impl History {
    /// One with a queue.
    fn new() -> History {
        let mut history = History::default();
        history.done("CreateQueue", json!({"QueueName": "q.fifo", "Attributes": {"FifoQueue": "true"}}), json!({}));
        history
    }

    fn line(&mut self, action: &str, request: Value, told: (&str, Value)) -> &mut History {
        self.lines.push(json!({"at": self.at, "action": action, "request": request, told.0: told.1}));
        self
    }

    fn done(&mut self, action: &str, request: Value, answer: Value) -> &mut History {
        self.line(action, request, ("answer", answer))
    }

    fn refused(&mut self, action: &str, request: Value, code: &str) -> &mut History {
        self.line(action, request, ("error", json!({"code": code, "message": "m"})))
    }

    fn after(&mut self, milliseconds: u64) -> &mut History {
        self.at += milliseconds;
        self
    }

    fn send(&mut self, dedup: &str, group: &str, id: &str) -> &mut History {
        let request = json!({
            "QueueUrl": "http://h/0/q.fifo", "MessageBody": dedup, "MessageGroupId": group, "MessageDeduplicationId": dedup
        });
        self.done("SendMessage", request, json!({"MessageId": id}))
    }

    /// A receive of up to so many, that handed messages by their ids, with their bodies and handles.
    fn receive(&mut self, size: u64, messages: &[(&str, &str, &str)]) -> &mut History {
        let message =
            |(id, body, handle): &(&str, &str, &str)| json!({"MessageId": id, "Body": body, "ReceiptHandle": handle});
        let messages: Vec<Value> = messages.iter().map(message).collect();
        let request = json!({"QueueUrl": "http://h/0/q.fifo", "MaxNumberOfMessages": size});
        self.done("ReceiveMessage", request, json!({"Messages": messages}))
    }

    fn of_handle(handle: &str) -> Value {
        json!({"QueueUrl": "http://h/0/q.fifo", "ReceiptHandle": handle})
    }

    fn delete(&mut self, handle: &str) -> &mut History {
        self.done("DeleteMessage", History::of_handle(handle), json!({}))
    }

    fn told(&self) -> (Verdict, String) {
        let text: String = self.lines.iter().map(|line| format!("{line}\n")).collect();
        let mut out = Vec::new();
        let told = check(text.as_bytes(), &mut out).unwrap();
        (told, String::from_utf8(out).unwrap())
    }

    fn is_allowed(&self) {
        let (told, said) = self.told();
        assert!(!told.is_refuted, "{said}");
        assert_eq!(told.allowed + told.not_judged, self.lines.len() as u64);
    }

    /// The last line isn't allowed, and this is said of it.
    fn is_refuted(&self, words: &str) {
        let (told, said) = self.told();
        let line = format!("line {}, ", self.lines.len());
        assert!(told.is_refuted && said.starts_with(&line) && said.contains(words), "{said}");
    }
}

#[test]
fn messages_of_a_group_come_in_order_and_wait_for_each_other() {
    let mut history = History::new();
    history.send("a", "g", "1").send("b", "g", "2").send("c", "h", "3");
    history.receive(1, &[("1", "a", "h1")]).receive(10, &[("3", "c", "h3")]).receive(10, &[]);
    history.delete("h1").receive(10, &[("2", "b", "h2")]).is_allowed();

    let two = || {
        let mut history = History::new();
        history.send("a", "g", "1").send("b", "g", "2");
        history
    };
    two().receive(1, &[("2", "b", "h")]).is_refuted("1 of its group g comes first (docs/QUEUES.md, \"Receive\")");
    two()
        .receive(1, &[("1", "a", "h")])
        .receive(1, &[("2", "b", "i")])
        .is_refuted("1 of its group g is in flight until 30000");
    two().receive(1, &[("1", "a", "h")]).receive(1, &[("1", "a", "i")]).is_refuted("it is in flight until 30000");
    two().receive(10, &[("1", "a", "h")]).is_refuted("it handed 1 messages; 2 (\"b\") of group g is there");
    two().receive(10, &[]).is_refuted("1 (\"a\") of group g is there");
    two().receive(1, &[("1", "a", "h"), ("2", "b", "i")]).is_refuted("at most 1 may be handed");
    two().receive(2, &[("1", "a", "h"), ("1", "a", "i")]).is_refuted("it is in flight");
    two().receive(1, &[("1", "b", "h")]).is_refuted("its body has to be \"a\", as it was sent");
    two().receive(1, &[("9", "a", "h")]).is_refuted("no message of this id was accepted");
    two()
        .receive(1, &[("1", "a", "h")])
        .delete("h")
        .after(400_000)
        .receive(1, &[("1", "a", "i")])
        .is_refuted("it was deleted");
    two()
        .receive(2, &[("1", "a", "h"), ("2", "b", "i")])
        .after(30_000)
        .receive(2, &[("1", "a", "h"), ("2", "b", "i")])
        .is_allowed();
    two().receive(11, &[]).is_refuted("it has to be refused, InvalidParameterValue");
}

#[test]
fn a_send_with_an_id_of_the_last_five_minutes_adds_nothing() {
    let mut history = History::new();
    history.send("a", "g", "1").after(299_999).send("a", "h", "1").receive(10, &[("1", "a", "h")]).delete("h");
    history.after(1).send("a", "g", "2").receive(10, &[("2", "a", "i")]).is_allowed();
    History::new()
        .send("a", "g", "1")
        .after(299_999)
        .send("a", "g", "2")
        .is_refuted("its MessageId is 2; it has to be 1");
    History::new().send("a", "g", "1").send("b", "g", "1").is_refuted("that of an earlier message");
    let send = |text: &str| json!({"QueueUrl": "q.fifo", "MessageBody": text, "MessageGroupId": "g", "MessageDeduplicationId": "d"});
    History::new().refused("SendMessage", send("a\u{b}"), "InvalidMessageContents").is_allowed();
    History::new()
        .done("SendMessage", send("a\u{b}"), json!({"MessageId": "1"}))
        .is_refuted("it has to be refused, InvalidMessageContents");
    History::new().refused("SendMessage", send("a"), "InvalidParameterValue").is_refuted("it has to be done");
    History::new().refused("SendMessage", send("a"), "ServiceUnavailable").receive(1, &[]).is_allowed();
    let no_id = json!({"QueueUrl": "q.fifo", "MessageBody": "a", "MessageGroupId": "g"});
    History::new().done("SendMessage", no_id.clone(), json!({"MessageId": "1"})).is_refuted("its queue makes none");
    let mut makes = History::default();
    let attributes = json!({"FifoQueue": "true", "ContentBasedDeduplication": "true"});
    makes.done("CreateQueue", json!({"QueueName": "q.fifo", "Attributes": attributes}), json!({}));
    makes.done("SendMessage", no_id.clone(), json!({"MessageId": "1"})).done(
        "SendMessage",
        no_id,
        json!({"MessageId": "1"}),
    );
    makes.is_allowed();
    let digest = json!({"MessageId": "1", "MD5OfMessageBody": "0"});
    History::new().done("SendMessage", send("a"), digest).is_refuted("it has to be that of the body");
}

#[test]
fn deletes_and_changes_are_by_the_last_handing() {
    let handed = || {
        let mut history = History::new();
        history.send("a", "g", "1").receive(1, &[("1", "a", "h")]);
        history
    };
    let delete = History::of_handle;
    let change = |handle: &str, seconds: u64| json!({"QueueUrl": "q.fifo", "ReceiptHandle": handle, "VisibilityTimeout": seconds});
    handed().delete("h").delete("h").after(50_000).delete("h").is_allowed();
    handed().after(30_000).refused("DeleteMessage", delete("h"), "InvalidParameterValue").is_allowed();
    handed().after(30_000).delete("h").is_refuted("docs/GATEWAY.md, \"Deletes and receipts\"");
    handed().after(30_000).receive(1, &[("1", "a", "i")]).delete("h").after(29_999).receive(1, &[]).is_allowed();
    handed().refused("DeleteMessage", delete("x"), "ReceiptHandleIsInvalidException").is_allowed();
    handed().delete("x").is_refuted("this queue gave no such handle");
    handed().done("ChangeMessageVisibility", change("h", 60), json!({})).after(59_999).receive(1, &[]).is_allowed();
    handed().after(30_000).done("ChangeMessageVisibility", change("h", 60), json!({})).is_refuted("MessageNotInflight");
    handed().delete("h").refused("ChangeMessageVisibility", change("h", 60), "InvalidParameterValue").is_allowed();
    handed().after(1_000).done("ChangeMessageVisibility", change("h", 43_200), json!({})).is_refuted("twelve hours");
    handed()
        .after(30_000)
        .receive(1, &[("1", "a", "i")])
        .done("ChangeMessageVisibility", change("h", 9), json!({}))
        .is_refuted("ReceiptHandleIsInvalid: its message was handed out again since");
}

#[test]
fn names_are_free_a_minute_behind_a_removal() {
    let create = |timeout: &str| json!({"QueueName": "q.fifo", "Attributes": {"FifoQueue": "true", "VisibilityTimeout": timeout}});
    let url = || json!({"QueueUrl": "http://h/0/q.fifo"});
    History::new()
        .done("CreateQueue", create("30"), json!({}))
        .refused("CreateQueue", create("31"), "QueueNameExists")
        .is_allowed();
    History::new()
        .done("CreateQueue", create("31"), json!({}))
        .is_refuted("it is there with another VisibilityTimeout");
    let removed = || {
        let mut history = History::new();
        history.send("a", "g", "1").receive(1, &[("1", "a", "h")]).done("DeleteQueue", url(), json!({}));
        history
    };
    removed()
        .after(59_999)
        .refused("CreateQueue", create("30"), "AWS.SimpleQueueService.QueueDeletedRecently")
        .is_allowed();
    removed().after(59_999).done("CreateQueue", create("30"), json!({})).is_refuted("removed within the last minute");
    removed().after(60_000).receive(1, &[]).is_refuted("there is no such queue");
    removed()
        .after(60_000)
        .done("CreateQueue", create("30"), json!({}))
        .refused("DeleteMessage", History::of_handle("h"), "ReceiptHandleIsInvalid")
        .send("a", "g", "2")
        .is_allowed();
    History::new()
        .done("ListQueues", json!({}), json!({"QueueUrls": ["http://h/0/q.fifo", "http://h/0/other"]}))
        .is_allowed();
    History::new().done("ListQueues", json!({}), json!({})).is_refuted("q.fifo is there, too");
    History::new()
        .done("ListQueues", json!({}), json!({"QueueUrls": ["http://h/0/q.fifo", "r.fifo"]}))
        .is_refuted("r.fifo isn't there");
    History::new()
        .refused("GetQueueUrl", json!({"QueueName": "q.fifo"}), "QueueDoesNotExist")
        .is_refuted("it is there");
    History::new().done("GetQueueUrl", json!({"QueueName": "r.fifo"}), json!({})).is_refuted("no such queue");
    History::default().done("CreateQueue", json!({"QueueName": "q.fifo"}), json!({})).is_refuted("ends in .fifo");
}

#[test]
fn attempts_purges_counts_and_batches() {
    let receive =
        |attempt: &str| json!({"QueueUrl": "q.fifo", "MaxNumberOfMessages": 10, "ReceiveRequestAttemptId": attempt});
    let messages = |handle: &str| json!({"Messages": [{"MessageId": "1", "Body": "a", "ReceiptHandle": handle}]});
    let mut history = History::new();
    history.send("a", "g", "1").done("ReceiveMessage", receive("x"), messages("h")).after(20_000);
    history.done("ReceiveMessage", receive("x"), messages("h")).after(29_999).receive(1, &[]).is_allowed();
    let mut other = History::new();
    other.send("a", "g", "1").done("ReceiveMessage", receive("x"), messages("h")).done(
        "ReceiveMessage",
        receive("x"),
        json!({}),
    );
    other.is_refuted("it gave no message; it has to give 1 again");
    let url = || json!({"QueueUrl": "q.fifo"});
    let purged = || {
        let mut history = History::new();
        history.send("a", "g", "1").done("PurgeQueue", url(), json!({}));
        history
    };
    purged().receive(1, &[]).is_allowed();
    purged().receive(1, &[("1", "a", "h")]).is_allowed();
    purged().after(60_000).receive(1, &[("1", "a", "h")]).is_refuted("purged a minute ago");
    purged().after(59_999).done("PurgeQueue", url(), json!({})).is_refuted("within the last minute");
    purged()
        .after(59_999)
        .send("b", "g", "2")
        .receive(9, &[("2", "b", "h")])
        .after(1)
        .done("PurgeQueue", url(), json!({}))
        .is_allowed();
    let counts = |visible: &str, hidden: &str| json!({"Attributes": {"ApproximateNumberOfMessages": visible, "ApproximateNumberOfMessagesNotVisible": hidden}});
    let counted = |told: Value| {
        let mut history = History::new();
        history.send("a", "g", "1").send("b", "g", "2").receive(1, &[("1", "a", "h")]).done(
            "GetQueueAttributes",
            url(),
            told,
        );
        history
    };
    counted(counts("1", "1")).is_allowed();
    counted(counts("2", "1")).is_refuted("ApproximateNumberOfMessages is 2; it has to be 1");
    let entry = |id: &str, dedup: &str| json!({"Id": id, "MessageBody": dedup, "MessageGroupId": "g", "MessageDeduplicationId": dedup});
    let batch = |entries: &[Value]| json!({"QueueUrl": "q.fifo", "Entries": entries});
    let result = |id: &str, message: &str| json!({"Id": id, "MessageId": message});
    let both = batch(&[entry("x", "a"), entry("y", "a")]);
    let told = |second: &str| json!({"Successful": [result("x", "1"), result("y", second)]});
    History::new().done("SendMessageBatch", both.clone(), told("1")).is_allowed();
    History::new().done("SendMessageBatch", both.clone(), told("2")).is_refuted("entry y: its MessageId is 2");
    History::new().done("SendMessageBatch", both, json!({"Successful": [result("x", "1")]})).is_refuted("entry y");
    History::new().done("SendMessageBatch", batch(&[]), json!({})).is_refuted("EmptyBatchRequest");
    let twice = batch(&[entry("x", "a"), entry("x", "b")]);
    History::new().refused("SendMessageBatch", twice, "BatchEntryIdsNotDistinct").is_allowed();
}

#[test]
fn of_delays_and_standard_queues_nothing_is_said() {
    let mut history = History::default();
    let attributes = json!({"FifoQueue": "true", "DelaySeconds": "5"});
    history.done("CreateQueue", json!({"QueueName": "q.fifo", "Attributes": attributes}), json!({}));
    history.done("CreateQueue", json!({"QueueName": "s"}), json!({}));
    history.done("SendMessage", json!({"QueueUrl": "http://h/0/s", "MessageBody": "a"}), json!({"MessageId": "1"}));
    let (told, _) = history.told();
    assert_eq!((told.allowed, told.not_judged), (1, 2));
}

#[test]
fn what_is_no_history_is_said_with_its_line() {
    let said = |text: &str| check(text.as_bytes(), &mut Vec::new()).unwrap_err().to_string();
    assert!(said("\n{").starts_with("line 2 is no line of a history: EOF"));
    assert_eq!(said(r#"{"at":1,"action":"a"}"#), "line 1 is no line of a history: it has an answer or an error");
    let two = format!("{}\n{}", r#"{"at":2,"action":"a","answer":{}}"#, r#"{"at":1,"action":"a","answer":{}}"#);
    assert_eq!(said(&two), "line 2 is no line of a history: its moment 1 is before that of an earlier one, 2");
    assert!(said(r#"{"at":1,"action":"a","answer":{},"more":1}"#).contains("unknown field"));
}
