//! Files of keys, and what a key may do.

use std::fs;

use super::{keys, signed, signed_at, Written, KEY};
use crate::access::file::{parse, Fault};
use crate::access::{Identity, Keys};
use crate::action::Action;
use crate::texts::QueueName;

fn row(more: &str) -> String {
    format!("{KEY}{more}\n")
}

fn identity(more: &str) -> Identity {
    parse(&row(more)).unwrap().remove("AKIDEXAMPLE").unwrap().0
}

fn queue(name: &str) -> QueueName {
    QueueName::parse(name).unwrap()
}

#[test]
fn a_key_may_do_all_that_is_not_left_out() {
    let identity = identity("");
    assert!(Action::of_sqs().all(|action| identity.may(action, Some(&queue("a.fifo")))));
    assert!(identity.may(Action::ListQueues, None) && identity.sees(&queue("a.fifo")));
}

#[test]
fn a_key_sees_queues_by_prefixes() {
    let identity = identity("queues = [\"orders-\", \"b.fifo\"]");
    for (name, is_seen) in [
        ("orders-.fifo", true),
        ("orders-1.fifo", true),
        ("orders.fifo", false),
        ("Orders-1.fifo", false),
        ("my-orders-1.fifo", false),
        ("b.fifo", true),
        ("bb.fifo", false),
    ] {
        assert_eq!(identity.sees(&queue(name)), is_seen, "{name}");
        assert_eq!(identity.may(Action::SendMessage, Some(&queue(name))), is_seen, "{name}");
    }
    assert!(identity.may(Action::ListQueues, None));
}

#[test]
fn actions_allow_their_batches_but_not_the_other_way_round() {
    let allowed = |more: &str| {
        let identity = identity(more);
        let may = |action: &Action| identity.may(*action, Some(&queue("a.fifo")));
        Action::of_sqs().filter(may).map(Action::name).collect::<Vec<_>>()
    };
    assert_eq!(allowed("actions = [\"SendMessage\"]"), ["SendMessage", "SendMessageBatch"]);
    assert_eq!(allowed("actions = [\"DeleteMessage\"]"), ["DeleteMessage", "DeleteMessageBatch"]);
    assert_eq!(
        allowed("actions = [\"ChangeMessageVisibility\", \"ListQueues\"]"),
        ["ChangeMessageVisibility", "ChangeMessageVisibilityBatch", "ListQueues"]
    );
    assert_eq!(allowed("actions = [\"SendMessageBatch\"]"), ["SendMessageBatch"]);
}

#[test]
fn a_refusal_says_who_what_and_on_which() {
    let refusal = identity("").refusal(Action::SendMessage, "arn:aws:sqs:us-east-1:000000000000:a.fifo");
    assert_eq!(
        refusal.to_string(),
        "User: AKIDEXAMPLE is not authorized to perform: sqs:sendmessage on resource: \
         arn:aws:sqs:us-east-1:000000000000:a.fifo because no identity-based policy allows the sqs:sendmessage action"
    );
    let coded = refusal.coded();
    assert_eq!(coded.type_name, "com.amazon.coral.service#AccessDeniedException");
    assert_eq!((coded.code, coded.status), ("AccessDenied", 403));
}

#[test]
fn faults_of_files_are_told_with_their_key() {
    let key = |access_key: &str| format!("[[key]]\naccess_key = \"{access_key}\"\nsecret = \"long enough\"\n");
    let long = "x".repeat(129);
    for (text, message) in [
        (String::new(), "it has no [[key]]"),
        ("key = []".into(), "it has no [[key]]"),
        ("[key]\naccess_key = \"a\"".into(), "key is not written as [[key]]"),
        ("key = [1]".into(), "key is not written as [[key]]"),
        ("keys = 1".into(), "beside [[key]] it has a field \"keys\", which is unknown"),
        ("[[key]]\naccess_key = x\n".into(), "line 2, column 14: this is not TOML"),
        ("[[key]]\nsecret = \"long enough\"".into(), "key number 1: access_key is missing"),
        (format!("{KEY}[[key]]\naccess_key = 1"), "key number 2: access_key is not a text"),
        (key(""), "key number 1: access_key is not 1 to 128 letters, digits, hyphens and underscores of ASCII"),
        (key("a b"), "key number 1: access_key is not 1 to 128 letters, digits, hyphens and underscores of ASCII"),
        (key("ä"), "key number 1: access_key is not 1 to 128 letters, digits, hyphens and underscores of ASCII"),
        (key(&long), "key number 1: access_key is not 1 to 128 letters, digits, hyphens and underscores of ASCII"),
        (format!("{KEY}{KEY}"), "the access key AKIDEXAMPLE is there twice"),
        ("[[key]]\naccess_key = \"a\"".into(), "key a: secret is missing"),
        ("[[key]]\naccess_key = \"a\"\nsecret = 12345678".into(), "key a: secret is not a text"),
        ("[[key]]\naccess_key = \"a\"\nsecret = \"1234567\"".into(), "key a: secret has fewer than 8 characters"),
        (row("queue = [\"a\"]"), "key AKIDEXAMPLE: it has a field \"queue\", which is unknown"),
        (row("queues = \"a\""), "key AKIDEXAMPLE: queues is not a list of texts"),
        (row("queues = [1]"), "key AKIDEXAMPLE: queues is not a list of texts"),
        (row("queues = []"), "key AKIDEXAMPLE: queues is an empty list; all are allowed where it is left out"),
        (row("queues = [\"a\", \"\"]"), "key AKIDEXAMPLE: no queue's name can begin as number 2 of queues says"),
        (row("queues = [\"a*\"]"), "key AKIDEXAMPLE: no queue's name can begin as number 1 of queues says"),
        (row("queues = [\"a.b\"]"), "key AKIDEXAMPLE: no queue's name can begin as number 1 of queues says"),
        (row("actions = []"), "key AKIDEXAMPLE: actions is an empty list; all are allowed where it is left out"),
        (
            row("actions = [\"SendMessage\", \"sendMessage\"]"),
            "key AKIDEXAMPLE: number 2 of actions is no action of SQS that is done here",
        ),
    ] {
        assert_eq!(parse(&text).unwrap_err().to_string(), message, "{text}");
    }
    assert!(parse(&key(&long[1..])).is_ok());
}

#[test]
fn no_secret_is_shown() {
    const SECRET: &str = "Jalr";
    let secret = "\"wJalrXUtnFEMI\"";
    assert!(!format!("{:?} {:?}", keys(KEY), parse(KEY).unwrap()).contains(SECRET));
    for text in [
        format!("[[key]]\naccess_key = \"a\"\nsecret = {secret}\nqueues = {secret}"),
        format!("[[key]]\naccess_key = \"a\"\nsecret = [{secret}]"),
        format!("[[key]]\naccess_key = \"wJalr/\"\nsecret = {secret}"),
        format!("[[key]]\naccess_key = [{secret}]"),
        format!("[[key]]\naccess_key = \"a\"\nsecret = {secret}\nactions = [{secret}]"),
        "[[key]]\naccess_key = \"a\"\nsecret = wJalrXUtnFEMI".into(),
        format!("[[key]]\naccess_key = \"a\"\nsecret = {secret} {secret}"),
        format!("key = {secret}"),
        format!("[[key]]\naccess_key = \"a\"\nsecret = \"\\q{}", &secret[1..]),
    ] {
        let fault: Fault = parse(&text).unwrap_err();
        assert!(!format!("{fault} {fault:?}").contains(SECRET), "{fault:?}");
    }
}

#[test]
fn a_file_is_read_again_as_a_whole_or_not_at_all() {
    let written = Written::new("keys.toml", KEY);
    let keys = Keys::read(&written.0).unwrap();
    let request = signed("client");
    let may_come_in = || keys.verify(&request.signable(), "sqs", signed_at()).is_ok();
    assert!(may_come_in());
    fs::write(&written.0, KEY.replace("EXAMPLEKEY", "EXAMPLEKEz").replace("[[key]]", "[[key]]\nqueues = [\"*\"]"))
        .unwrap();
    let error = keys.read_again().unwrap_err().to_string();
    assert!(error.contains("keys.toml: key AKIDEXAMPLE: no queue"), "{error}");
    assert!(may_come_in());
    // Another secret, though the key that was made of the old one is still at hand.
    fs::write(&written.0, KEY.replace("EXAMPLEKEY", "EXAMPLEKEz")).unwrap();
    keys.read_again().unwrap();
    assert!(!may_come_in());
    fs::write(&written.0, KEY).unwrap();
    keys.read_again().unwrap();
    assert!(may_come_in());
    fs::remove_file(&written.0).unwrap();
    assert!(keys.read_again().unwrap_err().to_string().contains("keys.toml: No such file"));
    assert!(may_come_in());
}

#[test]
fn a_file_that_is_not_text_or_not_there() {
    let written = Written::new("keys.toml", "");
    fs::write(&written.0, b"\xff").unwrap();
    let error = Keys::read(&written.0).unwrap_err().to_string();
    assert!(error.contains("keys.toml: stream did not contain valid UTF-8"), "{error}");
    let error = Keys::read(&written.0.with_file_name("none.toml")).unwrap_err().to_string();
    assert!(error.contains("none.toml: No such file"), "{error}");
}
