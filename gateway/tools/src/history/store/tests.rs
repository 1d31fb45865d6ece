//! Histories of a store by hand, and such as a store has by the rules that other tests have.

use hobbychair_bytes::seeded;
use hobbychair_bytes::values::Receipt;
use hobbychair_tables::by_rules::StoreByRules;
use hobbychair_tables::store_name::StoreName;
use proptest::prelude::*;
use serde_json::{json, Value};

use super::super::{check, Verdict};
use super::*;
use crate::history::stored::{line_of_chunk, line_of_request, request_of};

/// A history that is written by a test.
#[derive(Default)]
struct History {
    lines: Vec<Value>,
    at: u64,
}

impl History {
    /// One with a queue.
    fn new() -> History {
        let mut history = History::default();
        history.create(30, json!({"Incarnation": 1, "QueueUrl": "1.fifo"}));
        history
    }

    fn line(&mut self, action: &str, mut request: Value, told: (&str, Value)) -> &mut History {
        request[if action == "CreateQueue" { "QueueName" } else { "QueueUrl" }] = "1.fifo".into();
        let store = json!({"file": 1, "client": 1, "number": self.lines.len()});
        self.lines.push(json!({"at": self.at, "store": store, "action": action, "request": request, told.0: told.1}));
        self
    }

    fn done(&mut self, action: &str, request: Value, answer: Value) -> &mut History {
        self.line(action, request, ("answer", answer))
    }

    fn refused(&mut self, action: &str, request: Value, code: &str) -> &mut History {
        self.line(action, request, ("error", json!({"code": code})))
    }

    fn creating(timeout: u32) -> Value {
        let timeout = timeout.to_string();
        json!({"Attributes": {"FifoQueue": "true", "VisibilityTimeout": timeout, "ContentBasedDeduplication": "false"}})
    }

    fn create(&mut self, timeout: u32, answer: Value) -> &mut History {
        self.done("CreateQueue", History::creating(timeout), answer)
    }

    fn after(&mut self, milliseconds: u64) -> &mut History {
        self.at += milliseconds;
        self
    }

    /// A send whose body is its id, which the store numbers so.
    fn send(&mut self, id: &str, group: &str, sequence: u64) -> &mut History {
        let digest = hobbychair_sqs::digests::md5_of_text(id);
        let answer = json!({"MessageId": format!("1-{sequence}"), "SequenceNumber": sequence.to_string(), "MD5OfMessageBody": digest});
        let request = json!({"MessageGroupId": group, "MessageDeduplicationId": id, "MessageBody": id});
        self.done("SendMessage", request, answer)
    }

    /// A receive of up to so many, that handed messages by their receipts, bodies and groups.
    fn receive(&mut self, size: u64, messages: &[(&str, &str, &str)]) -> &mut History {
        let message = |(receipt, body, group): &(&str, &str, &str)| {
            let numbers: Vec<&str> = receipt.split('-').collect();
            json!({
                "MessageId": numbers[..2].join("-"),
                "ReceiptHandle": receipt,
                "Body": body,
                "MD5OfBody": hobbychair_sqs::digests::md5_of_text(body),
                "Attributes": {
                    "ApproximateReceiveCount": numbers[2], "MessageGroupId": group, "SequenceNumber": numbers[1]
                },
            })
        };
        let messages: Vec<Value> = messages.iter().map(message).collect();
        self.done("ReceiveMessage", json!({"MaxNumberOfMessages": size}), json!({"Messages": messages}))
    }

    fn delete(&mut self, receipt: &str, removed: bool) -> &mut History {
        self.done("DeleteMessage", json!({"ReceiptHandle": receipt}), json!({"Removed": removed}))
    }

    fn changing(receipt: &str, timeout: u32) -> Value {
        json!({"ReceiptHandle": receipt, "VisibilityTimeout": timeout})
    }

    fn change(&mut self, receipt: &str, timeout: u32) -> &mut History {
        self.done("ChangeMessageVisibility", History::changing(receipt, timeout), json!({}))
    }

    /// The last line once more, as it is.
    fn again(&mut self) -> &mut History {
        let last = self.lines.last().cloned().unwrap();
        self.lines.push(last);
        self
    }

    fn told(&self) -> (Verdict, String) {
        let text: String = self.lines.iter().map(|line| format!("{line}\n")).collect();
        let mut out = Vec::new();
        let told = check(text.as_bytes(), &mut out).unwrap();
        (told, String::from_utf8(out).unwrap())
    }

    fn is_allowed(&self) {
        let (told, said) = self.told();
        assert_eq!((told.is_refuted, told.allowed), (false, self.lines.len() as u64), "{said}");
    }

    /// The last line isn't allowed, and this is said of it.
    fn is_refuted(&self, words: &str) {
        let (told, said) = self.told();
        let line = format!("line {}, ", self.lines.len());
        assert!(told.is_refuted && said.starts_with(&line) && said.contains(words), "{said}");
    }
}

#[test]
fn names_have_incarnations_and_are_not_free_for_a_minute() {
    let mut history = History::new();
    history.create(30, json!({"Incarnation": 1, "QueueUrl": "1.fifo"}));
    history
        .refused("CreateQueue", History::creating(31), "QueueAlreadyExists")
        .send("a", "g", 1)
        .receive(1, &[("1-1-1", "a", "g")]);
    history.done("DeleteQueue", json!({}), json!({})).refused("DeleteQueue", json!({}), "QueueDoesNotExist");
    history.after(59_999).refused("CreateQueue", History::creating(30), "QueueDeletedRecently").after(1);
    history.create(30, json!({"Incarnation": 2, "QueueUrl": "1.fifo"}));
    history.refused("DeleteMessage", json!({"ReceiptHandle": "1-1-1"}), "ReceiptHandleIsInvalid").is_allowed();

    let mut history = History::new();
    history.done("DeleteQueue", json!({}), json!({})).create(30, json!({"Incarnation": 2, "QueueUrl": "1.fifo"}));
    history.is_refuted("it was done; the rules refuse it, QueueDeletedRecently (docs/QUEUES.md, \"Create\")");
    History::new().refused("DeleteQueue", json!({}), "QueueDoesNotExist").is_refuted("the rules do it");
    let mut history = History::new();
    history.create(30, json!({"Incarnation": 2, "QueueUrl": "1.fifo"}));
    history.is_refuted("it told Incarnation 2; the rules tell Incarnation 1");
}

#[test]
fn ids_are_remembered_for_five_minutes() {
    let mut history = History::new();
    history.send("a", "g", 1).after(299_999).send("a", "h", 1).after(1).send("a", "g", 2).is_allowed();
    let mut history = History::new();
    history.send("a", "g", 1).after(299_999).send("a", "g", 2);
    history.is_refuted("it told MessageId \"1-2\"; the rules tell MessageId \"1-1\" (docs/QUEUES.md, \"Send\")");
    let mut history = History::new();
    history.send("a", "g", 1).after(300_000).send("a", "g", 1).is_refuted("the rules tell MessageId \"1-2\"");
    let mut history = History::new();
    history
        .refused("SendMessage", json!({"MessageGroupId": "g", "MessageBody": "a"}), "InvalidParameterValue")
        .is_allowed();
    // A deleted message's id stays.
    let mut history = History::new();
    history.send("a", "g", 1).receive(1, &[("1-1-1", "a", "g")]).delete("1-1-1", true).send("a", "g", 1).is_allowed();
}

#[test]
fn messages_are_handed_group_by_group_in_their_order() {
    let four = || {
        let mut history = History::new();
        history.send("a", "g", 1).send("b", "h", 2).send("c", "g", 3).send("d", "h", 4);
        history
    };
    let (a, b) = (("1-1-1", "a", "g"), ("1-2-1", "b", "h"));
    let (c, d) = (("1-3-1", "c", "g"), ("1-4-1", "d", "h"));
    four().receive(10, &[a, c, b, d]).receive(10, &[]).is_allowed();
    four().receive(1, &[a]).receive(10, &[b, d]).receive(1, &[]).delete("1-1-1", true).receive(1, &[c]).is_allowed();
    four().receive(3, &[a, c, b]).after(30_000).receive(2, &[("1-1-2", "a", "g"), ("1-3-2", "c", "g")]).is_allowed();
    four()
        .receive(2, &[a, b])
        .is_refuted("it handed {\"Attributes\":{\"ApproximateReceiveCount\":\"1\",\"MessageGroupId\":\"h\"");
    four().receive(10, &[a, c, b]).is_refuted("it handed nothing as number 4; the rules hand {");
    four().receive(1, &[a]).receive(1, &[c]).is_refuted("(docs/QUEUES.md, \"Receive\")");
    four().receive(1, &[a]).receive(1, &[a]).is_refuted("the rules hand ");
    four().receive(1, &[a]).after(29_999).receive(1, &[("1-1-2", "a", "g")]).is_refuted("the rules hand ");
    four().receive(1, &[("1-1-1", "other", "g")]).is_refuted("\"Body\":\"a\"");
    four().receive(1, &[a]).after(30_000).receive(1, &[a]).is_refuted("\"ApproximateReceiveCount\":\"2\"");
}

#[test]
fn deletes_and_changes_go_by_the_last_receipt() {
    let one = || {
        let mut history = History::new();
        history.send("a", "g", 1).receive(1, &[("1-1-1", "a", "g")]);
        history
    };
    let refused = |receipt: &str, code: &str| {
        let mut history = one();
        history.refused("DeleteMessage", json!({"ReceiptHandle": receipt}), code);
        history
    };
    one()
        .after(30_000)
        .delete("1-1-1", true)
        .delete("1-1-1", false)
        .delete("1-1-9", false)
        .receive(1, &[])
        .is_allowed();
    for receipt in ["1-1-2", "1-2-1", "2-1-1"] {
        refused(receipt, "ReceiptHandleIsInvalid").is_allowed();
        one().delete(receipt, false).is_refuted("refuse it, ReceiptHandleIsInvalid (docs/QUEUES.md, \"Delete\")");
    }
    let again = ("1-1-2", "a", "g");
    one().after(30_000).receive(1, &[again]).delete("1-1-1", false).delete("1-1-2", true).is_allowed();
    one()
        .after(30_000)
        .receive(1, &[again])
        .delete("1-1-1", true)
        .is_refuted("it told Removed true; the rules tell Removed false");
    one().change("1-1-1", 40).after(30_000).receive(1, &[]).after(10_000).receive(1, &[again]).is_allowed();
    one().change("1-1-1", 0).receive(1, &[again]).is_allowed();
    one().after(1_000).change("1-1-1", 43_199).is_allowed();
    let change = |history: &mut History, receipt: &str, timeout: u32, code: &str| {
        history.refused("ChangeMessageVisibility", History::changing(receipt, timeout), code).is_allowed();
        history.lines.pop();
        history.change(receipt, timeout).is_refuted(code);
    };
    change(one().after(1_000), "1-1-1", 43_200, "InvalidParameterValue");
    change(one().after(30_000), "1-1-1", 1, "MessageNotInflight");
    change(one().after(30_000).receive(1, &[again]), "1-1-1", 1, "ReceiptHandleIsInvalid");
    change(one().delete("1-1-1", true), "1-1-7", 1, "MessageNotInflight");
    change(&mut one(), "1-2-1", 1, "ReceiptHandleIsInvalid");
}

#[test]
fn a_repeat_has_the_first_answer_and_does_nothing() {
    let two = || {
        let mut history = History::new();
        history.send("a", "g", 1).send("b", "h", 2);
        history
    };
    let (a, b) = (("1-1-1", "a", "g"), ("1-2-1", "b", "h"));
    two().receive(1, &[a]).again().receive(1, &[b]).is_allowed();
    let mut history = two();
    history.receive(1, &[a]).receive(1, &[b]);
    let number = history.lines[3]["store"].clone();
    history.lines[4]["store"] = number;
    history.is_refuted("(docs/QUEUES.md, \"Repeats\")");
    let mut history = two();
    history.receive(1, &[a]).refused("ReceiveMessage", json!({"MaxNumberOfMessages": 1}), "StaleNumber");
    history.lines[4]["store"]["number"] = 2.into();
    history.is_allowed();
    history.lines[4]["store"]["number"] = 4.into();
    history.is_refuted("the rules do it");
    // Other clients, and those of other files, have numbers of their own.
    let mut history = two();
    history.receive(1, &[a]).receive(1, &[b]);
    history.lines[4]["store"] = json!({"file": 1, "client": 2, "number": 0});
    history.is_allowed();
    history.lines[4]["store"]["file"] = 2.into();
    history.is_refuted("the rules refuse it, QueueDoesNotExist");
}

#[test]
fn a_line_that_is_none_of_a_store_is_told() {
    let line = |change: fn(&mut Value)| {
        let mut history = History::new();
        history.send("a", "g", 1).receive(1, &[("1-1-1", "a", "g")]).delete("1-1-1", true).change("1-1-1", 1);
        let told = |history: &History, place: usize| {
            let mut line = history.lines[place].clone();
            change(&mut line);
            check(line.to_string().as_bytes(), &mut Vec::new())
                .map(|told| told.is_refuted)
                .map_err(|error| error.to_string())
        };
        (0..history.lines.len()).map(|place| told(&history, place)).collect::<Vec<_>>()
    };
    let all_none = |told: Vec<Result<bool, String>>| {
        told.iter().all(|told| told.as_ref().is_err_and(|why| why.starts_with("line 1 is no line")))
    };
    assert!(all_none(line(|line| line["action"] = "PurgeQueue".into())));
    assert!(all_none(line(|line| line["request"] = json!({}))));
    assert!(all_none(line(|line| drop(line["store"].as_object_mut().unwrap().remove("client")))));
    assert!(all_none(line(|line| line["store"]["files"] = 1.into())));
    let told = line(|line| line["request"]["ReceiptHandle"] = "1-1".into());
    assert_eq!(told.iter().map(Result::is_err).collect::<Vec<_>>(), [false, false, false, true, true]);
    let told = line(|line| line["request"]["VisibilityTimeout"] = json!(-1));
    assert_eq!(told.iter().map(Result::is_err).collect::<Vec<_>>(), [false, false, true, false, true]);
}

/// What is asked next: of which of two queues, what, and how many milliseconds later.
type Step = (u64, StoreAsk, u64);

fn steps() -> impl Strategy<Value = Vec<Step>> {
    let receipt = (1u64..6, 1u64..4).prop_map(|(sequence, ordinal)| Receipt { incarnation: 1, sequence, ordinal });
    let timeout = prop_oneof![Just(0u32), Just(1), Just(30), Just(43_200)];
    let text = |texts: &'static [&'static str]| proptest::sample::select(texts).prop_map(String::from);
    let send = (text(&["g", "h", "i"]), text(&["1", "2", "3", "4", "5"]));
    let ask = prop_oneof![
        1 => timeout.clone().prop_map(|timeout| StoreAsk::Create { timeout: timeout.min(30), makes_ids: false }),
        1 => Just(StoreAsk::Remove),
        6 => send.prop_map(|(group, id)| StoreAsk::Send { body: format!("{id} of {group}"), group, dedup: Some(id) }),
        6 => (1u32..5, proptest::option::of(timeout.clone())).prop_map(|(size, timeout)| StoreAsk::Receive { size, timeout }),
        4 => receipt.clone().prop_map(|receipt| StoreAsk::Delete { receipt }),
        4 => (receipt, timeout).prop_map(|(receipt, timeout)| StoreAsk::Change { receipt, timeout }),
    ];
    let step = prop_oneof![8 => 0u64..2_000, 2 => Just(30_000u64), 1 => Just(60_000), 1 => 299_000u64..301_000];
    proptest::collection::vec((1u64..3, ask, step), 1..60)
}

/// A store that is made of another one's bytes.
fn loaded(other: &StoreByRules, number: u64) -> Store {
    let mut loading = Loading::default();
    other.bytes(3, number).iter().for_each(|chunk| loading.feed(chunk).unwrap());
    loading.end().unwrap()
}

/// The other store knows one incarnation of a receipt's queue alone, so a name is made once here.
#[test]
fn replies_are_those_of_another_store_by_the_rules_also_where_one_begins_with_its_bytes() {
    seeded::check(2_000, (steps(), 0usize..60), |(steps, cut)| {
        let (mut store, mut other, mut now) = (Store::default(), StoreByRules::default(), 1_000);
        let mut removed = std::collections::HashSet::new();
        for (place, (queue, ask, step)) in steps.into_iter().enumerate() {
            let (name, number) = (StoreName(queue).to_string(), place as u64);
            if removed.contains(&queue) && matches!(ask, StoreAsk::Create { .. }) {
                continue;
            }
            if ask == StoreAsk::Remove {
                removed.insert(queue);
            }
            now += step;
            let request = StoreRequest { client: 1, number: number + 1, queue: name, ask };
            if place == cut {
                store = loaded(&other, number);
                let repeat = StoreRequest { number, ..request.clone() };
                prop_assert!(store.reply(&repeat, now).is_none(), "what it was answered isn't known");
            }
            let expected = other.reply(&request.ask.written(&request.queue), now);
            let (KeptReply { reply, .. }, _) = store.reply(&request, now).unwrap();
            prop_assert_eq!(&reply, &expected, "{:?} at {}", request, now);
            let line = line_of_request(&request, 1, now, told(&request, 1, &reply).unwrap());
            prop_assert_eq!(request_of(&line, line.store.unwrap()), Ok(request));
        }
        Ok(())
    });
}

#[test]
fn a_history_may_begin_with_a_store_which_is_not_judged() {
    let mut other = StoreByRules::default();
    let mut ask = |ask: StoreAsk<&str>, now| drop(other.reply(&ask.written(StoreName(1)), now));
    ask(StoreAsk::Create { timeout: 30, makes_ids: false }, 500);
    ["a", "b"].into_iter().for_each(|id| ask(StoreAsk::Send { group: "g", dedup: Some(id), body: id }, 600));
    ask(StoreAsk::Receive { size: 1, timeout: None }, 700);
    let begin = || {
        let mut history = History { at: 700, ..History::default() };
        let chunks = other.bytes(2, 3);
        assert!(chunks.len() > 2);
        history.lines =
            chunks.iter().map(|chunk| serde_json::to_value(line_of_chunk(1, 700, chunk)).unwrap()).collect();
        // Numbers of requests are above these.
        assert!(history.lines.len() > 3);
        history
    };
    let loads = begin().lines.len() as u64;
    let mut history = begin();
    history.send("a", "g", 1).after(29_999).receive(1, &[]).after(1).receive(1, &[("1-1-2", "a", "g")]);
    let (told, said) = history.told();
    assert_eq!((told.is_refuted, told.allowed, told.not_judged), (false, 3, loads), "{said}");
    begin().send("a", "g", 3).is_refuted("the rules tell MessageId \"1-1\"");
    begin().receive(1, &[("1-2-1", "b", "g")]).is_refuted("hand nothing there");
    begin().after(30_000).receive(1, &[("1-1-1", "a", "g")]).is_refuted("\"ApproximateReceiveCount\":\"2\"");

    let error = |history: &History| {
        let text: String = history.lines.iter().map(|line| format!("{line}\n")).collect();
        check(text.as_bytes(), &mut Vec::new()).unwrap_err().to_string()
    };
    let mut late = begin();
    late.send("a", "g", 1).lines.push(begin().lines[0].clone());
    assert!(error(&late).ends_with("its store was asked something before"), "{}", error(&late));
    let mut cut = begin();
    cut.lines.pop();
    assert!(error(cut.send("a", "g", 1)).ends_with("what was loaded before isn't whole: 91 Truncated"));
    let mut swapped = begin();
    swapped.lines.swap(0, 1);
    assert!(error(&swapped).contains("its chunk is none that comes next"));
    let mut spoilt = begin();
    spoilt.lines[0]["request"]["Chunk"] = "?".into();
    assert!(error(&spoilt).ends_with("its Chunk is none of a store's"));
}
