//! What is made of a run that is told.

use super::events::Event;
use super::run::{Run, RunStep};
use super::scene::{Kind, Scene};
use super::{svg, text};
use crate::watch::{OutputLine, Shown};

/// A chain of two servers, of which the first has so many entries; with what is on its way.
fn shown(count: u64, is_down: bool, ways: &str) -> Shown {
    let line = format!(
        r#"{{"chain":[1,2],"joins":null,"kind":"show","ready":true,"servers":[{{"acked":0,"acts":false,"count":{count},"down":{is_down},"full":true,"head":true,"server":1}},{{"acked":0,"acts":true,"count":0,"down":false,"full":true,"head":false,"server":2}}],"ways":[{ways}]}}"#
    );
    match OutputLine::of(&line) {
        Ok(OutputLine::Shown(shown)) => shown,
        other => panic!("{other:?}"),
    }
}

const WAITS: &str = r#"{"from":1,"next":{"kind":"Fwd","number":1},"stands":0,"to":2,"waits":1}"#;
const STANDS: &str = r#"{"from":1,"next":null,"stands":1,"to":2,"waits":0}"#;

/// A request that reaches the head, is put, and never taken; then the head crashes, and puts nothing more.
fn run() -> Run {
    let lines = [
        (
            r#"{"op":"arrive","at":1,"clock":1,"client":7,"number":1,"ask":{"kind":"remove","queue":"<a>.fifo"}}"#,
            shown(1, false, WAITS),
            None,
        ),
        (r#"{"op":"put","from":1,"to":2}"#, shown(1, false, STANDS), None),
        (r#"{"op":"crash","server":1}"#, shown(1, true, STANDS), None),
        (r#"{"op":"put","from":1,"to":2}"#, shown(1, true, STANDS), Some("ServerDown".to_owned())),
    ];
    let steps = lines.into_iter().enumerate().map(|(index, (line, after, refused))| {
        let event = Event::of(line).expect(line);
        RunStep { line: index + 1, event, answer: None, refused, after }
    });
    Run { before: shown(0, false, ""), steps: steps.collect() }
}

#[test]
fn a_message_that_is_never_taken_ends_in_the_air() {
    let scene = Scene::of(&run());
    let names: Vec<String> = scene.lanes.iter().map(|lane| lane.actor.name()).collect();
    assert_eq!(names, ["client 7", "server 1", "server 2", "master"]);
    assert_eq!(scene.lanes[1].roles, ["head"]);
    assert_eq!(scene.lanes[1].crashes, Some(3));
    let arrows: Vec<_> = scene.arrows.iter().map(|a| (a.label.as_str(), a.from, a.to, a.begins, a.ends)).collect();
    assert_eq!(arrows, [("#1 remove <a>.fifo", 0, 1, 1, Some(1)), ("Fwd 1", 1, 2, 2, None)]);
    let marks: Vec<_> = scene.marks.iter().map(|mark| (mark.kind, mark.lane, mark.row, mark.text.as_str())).collect();
    assert_eq!(marks, [(Kind::Crash, 1, 3, "crash"), (Kind::Refusal, 1, 4, "ServerDown")]);
}

#[test]
fn names_are_escaped() {
    let mut out = Vec::new();
    svg::write(&Scene::of(&run()), &mut out).unwrap();
    let told = String::from_utf8(out).unwrap();
    assert!(told.contains("#1 remove &lt;a&gt;.fifo"), "{told}");
    assert!(told.starts_with("<svg ") && told.ends_with("</svg>\n"));
}

#[test]
fn letters_say_the_same() {
    let mut out = Vec::new();
    text::write(&Scene::of(&run()), &mut out).unwrap();
    let told = String::from_utf8(out).unwrap();
    let last: Vec<&str> = told.lines().rev().take(2).collect();
    assert_eq!(last[0], "Fwd 1 of line 2, from server 1 to server 2, is never taken");
    assert!(last[1].ends_with("server 1 puts nothing for server 2 (refused: ServerDown)"), "{told}");
}
