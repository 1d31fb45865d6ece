//! Which journal is taken of those that nodes left.

use std::path::Path;
use std::sync::mpsc::channel;

use bytes::Bytes;

use super::*;
use crate::journal::{Entry, Head, Known, Record, Writer, Written, VERSION};
use crate::records::random_name;

const FIRST: &str = "00000000000000aa";
const SECOND: &str = "00000000000000bb";

/// A folder for journals, which goes with the test.
struct Room(PathBuf);

impl Drop for Room {
    fn drop(&mut self) {
        let _ = std::fs::remove_dir_all(&self.0);
    }
}

impl Room {
    fn new() -> Room {
        let room = Room(std::env::temp_dir().join(format!("hobbychair-plan-{}", random_name())));
        std::fs::create_dir(&room.0).unwrap();
        room
    }

    /// A journal of these entries, whose node knew that of the log.
    fn add(&self, head: &Head, requests: &str, known: &Known) -> JournalFolder {
        let folder = JournalFolder::of(&self.0, &head.incarnation, head.server);
        folder.make().unwrap();
        let (tell, told) = channel();
        let writer = Writer::begin(folder.clone(), head.clone(), 1, false, move |one| drop(tell.send(one))).unwrap();
        let mut records = Vec::new();
        for (moment, request) in (1..).zip(requests.bytes()) {
            Record::Entry(Entry { moment, request: Bytes::copy_from_slice(&[request]) }).write(&mut records);
        }
        Record::Known(known.clone()).write(&mut records);
        writer.append(records, 0, Some(known.clone()), 1);
        assert!(matches!(told.recv(), Ok(Written::UpTo { ticket: 1, .. })));
        folder
    }

    /// The journal of a server of the first incarnation.
    fn of(&self, server: u32, requests: &str, known: &Known) -> JournalFolder {
        self.add(&head(FIRST, server), requests, known)
    }

    fn sources(&self) -> Result<Sources> {
        Sources::read(std::slice::from_ref(&self.0))
    }

    fn plan(&self, in_etcd: Option<&Chain>) -> Result<Plan> {
        Plan::make("tested", self.sources()?, in_etcd.map(|chain| (FIRST.into(), chain.clone())), None)
    }
}

fn head(incarnation: &str, server: u32) -> Head {
    Head {
        version: VERSION,
        cluster: "tested".into(),
        incarnation: incarnation.into(),
        follows: None,
        servers: 3,
        has_certificates: false,
        is_durable: true,
        server,
        count: 0,
        known: Known::default(),
    }
}

/// The chain behind a line of the log.
fn chain(line: u64, members: &[u32], joiner: Option<u32>, full: &[u32]) -> Chain {
    let used = (1..=5).collect();
    Chain { line, members: members.to_vec(), joiner, is_ready: joiner.is_none(), full: full.to_vec(), used }
}

fn knows(chain: &Chain) -> Known {
    Known { chain: Some(chain.clone()), ..Known::default() }
}

/// What an attempt that comes to nothing says.
fn why<T>(result: Result<T>) -> String {
    result.err().map(|error| format!("{error:#}")).unwrap_or_default()
}

/// Whose journal is taken, how many entries that has, and what may be lost.
fn taken(plan: &Plan) -> (u32, u64, &[String]) {
    (plan.taken, plan.taken().count, &plan.problems)
}

#[test]
fn the_longest_journal_of_the_full_members_is_taken() {
    let room = Room::new();
    let first = Known::default();
    room.of(1, "abc", &first);
    room.of(2, "abcde", &first);
    room.of(3, "abcd", &first);
    assert_eq!(taken(&room.plan(None).unwrap()), (2, 5, &[][..]));
    assert_eq!(taken(&room.plan(Some(&Chain::first(3))).unwrap()), (2, 5, &[][..]));
}

#[test]
fn of_journals_of_the_same_length_the_first_servers_is_taken() {
    let room = Room::new();
    (1..=3).for_each(|server| drop(room.of(server, "ab", &Known::default())));
    assert_eq!(taken(&room.plan(None).unwrap()), (1, 2, &[][..]));
}

#[test]
fn a_longer_journal_of_a_server_that_was_given_up_does_not_count() {
    let room = Room::new();
    let later = knows(&chain(2, &[2, 3], None, &[2, 3]));
    room.of(1, "abxyz", &Known::default());
    room.of(2, "abc", &later);
    room.of(3, "ab", &Known::default());
    assert_eq!(taken(&room.plan(None).unwrap()), (2, 3, &[][..]));
}

#[test]
fn what_etcd_says_counts_where_its_log_is_longer() {
    let room = Room::new();
    (1..=3).for_each(|server| drop(room.of(server, &"abcd"[..server as usize], &Known::default())));
    let plan = room.plan(Some(&chain(3, &[1, 2], None, &[1, 2]))).unwrap();
    assert_eq!(taken(&plan), (2, 2, &[][..]));
    // And the journals' one where etcd's is older.
    let room = Room::new();
    (1..=2).for_each(|server| drop(room.of(server, "ab", &knows(&chain(5, &[1, 2], None, &[1, 2])))));
    assert_eq!(taken(&room.plan(Some(&Chain::first(3))).unwrap()), (1, 2, &[][..]));
}

#[test]
fn a_journal_that_is_missing_may_have_what_no_other_one_has() {
    let room = Room::new();
    room.of(1, "abc", &Known::default());
    room.of(2, "abc", &Known::default());
    let missing = "the journal of server 3, which had all that was acknowledged, is missing";
    let plan = room.plan(None).unwrap();
    assert_eq!(taken(&plan), (1, 3, &[format!("{missing}, and it may know of a later chain")][..]));
    let plan = room.plan(Some(&Chain::first(3))).unwrap();
    assert_eq!(taken(&plan), (1, 3, &[missing.to_string()][..]), "etcd has all of the log");
}

#[test]
fn so_may_that_of_a_server_that_joined_or_was_not_full_yet() {
    let room = Room::new();
    room.of(1, "abc", &knows(&chain(4, &[1, 2], Some(3), &[1])));
    let plan = room.plan(None).unwrap();
    let [second, third] = taken(&plan).2 else { panic!("{:?}", plan.problems) };
    assert!(
        second.starts_with("the journal of server 2, which wasn't known to have all that was acknowledged, is missing")
    );
    assert!(third.starts_with("the journal of server 3, which joined, is missing"));
}

#[test]
fn a_member_that_is_not_full_is_taken_only_where_no_full_one_is_there() {
    let known = knows(&chain(4, &[1, 2], None, &[1]));
    let room = Room::new();
    room.of(1, "ab", &known);
    room.of(2, "abcd", &known);
    assert_eq!(taken(&room.plan(None).unwrap()), (1, 2, &[][..]));
    let room = Room::new();
    room.of(2, "abcd", &known);
    let plan = room.plan(None).unwrap();
    assert_eq!((plan.taken, plan.problems.len()), (2, 2));
    assert!(plan.problems[1].contains("all that server 2 lacks is lost"));
}

#[test]
fn nothing_is_taken_of_servers_without_a_place_in_the_chain() {
    let room = Room::new();
    room.of(4, "abcd", &knows(&chain(4, &[1, 2], None, &[1, 2])));
    assert!(why(room.plan(None)).starts_with("there is nothing to recover: the journal of server 1"));
}

#[test]
fn journals_of_full_members_that_differ_are_named_with_the_first_entry_that_does() {
    let room = Room::new();
    room.of(1, "abcd", &Known::default());
    room.of(2, "abxdef", &Known::default());
    room.of(3, "ab", &Known::default());
    let plan = room.plan(None).unwrap();
    let differ = "the journals of servers 2 and 1 differ from entry 3 on, and those of server 1 are lost";
    assert_eq!(taken(&plan), (2, 6, &[differ.to_string()][..]));
}

#[test]
fn a_loss_that_a_node_knew_of_behind_the_last_chain_says_that_there_was_a_later_one() {
    let room = Room::new();
    room.of(1, "ab", &Known { gone: [2].into(), ..Known::default() });
    (2..=3).for_each(|server| drop(room.of(server, "ab", &Known::default())));
    let plan = room.plan(None).unwrap();
    let later = "server 1 knew that server 2 was given up, so there was a later chain than that of line 0";
    assert_eq!(taken(&plan).2, [later.to_string()]);
}

#[test]
fn a_journal_that_was_spoilt_counts_up_to_there_and_one_that_cannot_be_read_does_not() {
    let room = Room::new();
    let folders: Vec<JournalFolder> = (1..=3).map(|server| room.of(server, "abc", &Known::default())).collect();
    std::fs::write(folders[2].entries(1), b"nothing").unwrap();
    let plan = room.plan(None).unwrap();
    assert_eq!((plan.taken, plan.problems.len()), (1, 1));
    assert!(plan.problems[0].starts_with("server 3, which had all that was acknowledged: "));
    // Of the first one the frame with the entries is spoilt, and another segment is behind that.
    let path = folders[0].entries(1);
    let mut bytes = std::fs::read(&path).unwrap();
    *bytes.last_mut().unwrap() ^= 1;
    std::fs::write(&path, bytes).unwrap();
    std::fs::copy(&path, folders[0].entries(2)).unwrap();
    let plan = room.plan(None).unwrap();
    assert_eq!((plan.taken, plan.taken().count, plan.problems.len()), (2, 3, 2));
    assert!(plan.problems[0].contains("is damaged at byte"));
}

#[test]
fn of_several_incarnations_the_one_is_taken_that_no_other_follows() {
    let room = Room::new();
    (1..=3).for_each(|server| drop(room.of(server, "abc", &Known::default())));
    let second = Head { follows: Some(FIRST.into()), servers: 1, ..head(SECOND, 1) };
    let folder = room.add(&second, "xy", &Known::default());
    let plan = room.plan(None).unwrap();
    assert_eq!((plan.incarnation.as_str(), taken(&plan)), (SECOND, (1, 2, &[][..])));
    let plan = Plan::make("tested", room.sources().unwrap(), None, Some(FIRST)).unwrap();
    assert_eq!((plan.incarnation.as_str(), taken(&plan)), (FIRST, (1, 3, &[][..])));
    // Of one that can't be read nobody knows which one that follows.
    std::fs::write(folder.entries(1), b"nothing").unwrap();
    assert!(why(room.plan(None)).contains("say --incarnation"));
}

#[test]
fn another_incarnation_than_etcd_says_is_refused() {
    let room = Room::new();
    room.of(1, "a", &Known::default());
    let in_etcd = Some((FIRST.into(), Chain::first(1)));
    let refused = why(Plan::make("tested", room.sources().unwrap(), in_etcd, Some(SECOND)));
    assert_eq!(refused, format!("etcd says that the cluster is of incarnation {FIRST}, and not {SECOND}"));
}

#[test]
fn journals_of_another_cluster_are_refused() {
    let room = Room::new();
    room.add(&Head { cluster: "another".into(), ..head(FIRST, 1) }, "a", &Known::default());
    assert!(why(room.plan(None)).contains("there is no journal of cluster tested"));
    assert!(why(room.plan(Some(&Chain::first(1)))).contains("is of cluster another"));
}

#[test]
fn a_journal_that_is_given_twice_or_is_in_use_is_refused_and_so_are_folders_without_one() {
    let (room, empty) = (Room::new(), Room::new());
    let folder = room.of(1, "a", &Known::default());
    let read = |paths: &[&Path]| why(Sources::read(&paths.iter().map(|path| path.to_path_buf()).collect::<Vec<_>>()));
    assert_eq!(read(&[&room.0]), "");
    assert!(read(&[&room.0, &folder.0]).contains("was given twice"));
    assert!(read(&[&room.0, &empty.0]).contains("there are no journals of nodes in"));
    let _lock = folder.lock().unwrap();
    assert!(read(&[&room.0]).contains("is in use: stop its node first"));
}
