//! A host of a chain of processes on one machine, for sends alone: it starts `cq server` for each server and a `cq master`, carries what
//! each puts to the one that it is for, and tells how many sends a second the chain answers.
//!
//! usage: host CQ SERVERS REQUESTS OPEN
//!
//! OPEN clients have one request open each. A thread for each process reads what it tells; what one read brings is carried on by one
//! write to each process that it is for.
use std::env;
use std::io::{Read, Write};
use std::process::{Child, ChildStdin, ChildStdout, Command, Stdio};
use std::sync::mpsc::{channel, Sender};
use std::sync::{Arc, Mutex};
use std::thread;
use std::time::Instant;

const MASTER: usize = 0;
const BODY: &str = "a message of a hundred bytes, as many of them are; the rest of it is here so that it is as long as that.";

/// The inputs of all processes: the master's, and then those of servers 1 to N.
type Inputs = Arc<Vec<Mutex<ChildStdin>>>;

fn number32(bytes: &[u8]) -> u32 {
    u32::from_le_bytes(bytes[..4].try_into().unwrap())
}

fn put_text(out: &mut Vec<u8>, text: &str) {
    out.extend((text.len() as u32).to_le_bytes());
    out.extend(text.as_bytes());
}

/// Adds the frame of what is written behind the length's place.
fn put_frame(out: &mut Vec<u8>, write: impl FnOnce(&mut Vec<u8>)) {
    let start = out.len();
    out.extend([0; 4]);
    write(out);
    let length = (out.len() - start - 4) as u32;
    out[start..start + 4].copy_from_slice(&length.to_le_bytes());
}

/// The client's next request, as an arrival of stream 1, as all are: the first one of the first client makes the queue.
fn put_request(out: &mut Vec<u8>, client: u32, number: u64) {
    put_frame(out, |out| {
        out.extend([1, 0]);
        out.extend(1u64.to_le_bytes());
        out.extend((1_000 + number).to_le_bytes());
        out.extend(client.to_le_bytes());
        out.extend(number.to_le_bytes());
        if client == 0 && number == 1 {
            out.push(0);
            put_text(out, "q.fifo");
            out.extend(30u32.to_le_bytes());
            out.push(0);
        } else {
            out.push(2);
            put_text(out, "q.fifo");
            put_text(out, &format!("g{}", client % 16));
            out.push(1);
            put_text(out, &format!("{client}-{number}"));
            put_text(out, BODY);
        }
    });
}

/// A take of what was put: the same piece with its number, behind who put it.
fn put_take(out: &mut Vec<u8>, from: usize, number_and_run: &[u8]) {
    put_frame(out, |out| {
        out.extend([1, 2]);
        match from {
            MASTER => out.push(0),
            server => {
                out.push(2);
                out.extend((server as u32).to_le_bytes());
            }
        }
        out.extend(number_and_run);
    });
}

/// What one read brought for each process, and the clients whose requests were answered, with the numbers of these.
struct Carried {
    outs: Vec<Vec<u8>>,
    answered: Vec<(u32, u64)>,
}

impl Carried {
    fn take_frame(&mut self, who: usize, frame: &[u8]) {
        if frame[1] != 0 {
            if frame[1] != 5 && frame[1] != 6 {
                panic!("process {who} tells {frame:?}");
            }
            return;
        }
        match frame[2] {
            0 => put_take(&mut self.outs[MASTER], who, &frame[3..]),
            1 => {
                let answer = &frame[23..];
                let number = u64::from_le_bytes(answer[6..14].try_into().unwrap());
                // (behind the flag and the length: created, or sent)
                assert!(answer[23] == 0 || answer[23] == 2, "the answer is {answer:?}");
                self.answered.push((number32(&answer[2..]), number));
            }
            _ => put_take(&mut self.outs[number32(&frame[3..]) as usize], who, &frame[7..]),
        }
    }

    fn write(&mut self, inputs: &Inputs) {
        for (out, input) in self.outs.iter_mut().zip(inputs.iter()) {
            if !out.is_empty() {
                input.lock().unwrap().write_all(out).unwrap();
                out.clear();
            }
        }
    }
}

/// Carries what a process tells, up to its end, and has each answered client ask again, up to `last` requests of each.
fn carry(who: usize, mut told: ChildStdout, inputs: Inputs, last: u64, done: Sender<u64>) {
    let mut carried = Carried { outs: vec![Vec::new(); inputs.len()], answered: Vec::new() };
    let mut bytes = vec![0; 1 << 20];
    let mut filled = 0;
    loop {
        let count = told.read(&mut bytes[filled..]).unwrap();
        if count == 0 {
            return;
        }
        filled += count;
        let mut at = 0;
        while filled - at >= 4 && filled - at - 4 >= number32(&bytes[at..]) as usize {
            let end = at + 4 + number32(&bytes[at..]) as usize;
            carried.take_frame(who, &bytes[at + 4..end]);
            at = end;
        }
        bytes.copy_within(at..filled, 0);
        filled -= at;
        let answers = carried.answered.len() as u64;
        for (client, number) in std::mem::take(&mut carried.answered) {
            if number < last {
                put_request(&mut carried.outs[1], client, number + 1);
            }
        }
        carried.write(&inputs);
        if answers > 0 {
            done.send(answers).unwrap();
        }
    }
}

fn start(program: &str, words: &[String]) -> Child {
    Command::new(program).args(words).stdin(Stdio::piped()).stdout(Stdio::piped()).spawn().unwrap()
}

/// The processor time that a process has taken: fields 14 and 15 of its line, in hundredths of a second.
fn processor_seconds(id: u32) -> f64 {
    let line = std::fs::read_to_string(format!("/proc/{id}/stat")).unwrap();
    let fields: Vec<&str> = line[line.rfind(')').unwrap() + 2..].split(' ').collect();
    fields[11..13].iter().map(|field| field.parse::<f64>().unwrap()).sum::<f64>() / 100.0
}

fn main() {
    let words: Vec<String> = env::args().skip(1).collect();
    let [program, servers, requests, open] = &words[..] else {
        panic!("usage: host CQ SERVERS REQUESTS OPEN");
    };
    let servers: usize = servers.parse().unwrap();
    let requests: u64 = requests.parse().unwrap();
    let open: u32 = open.parse().unwrap();
    let last = requests / u64::from(open);
    let text = |word: &str| word.to_string();
    let mut children = vec![start(program, &[text("master"), text("--servers"), servers.to_string()])];
    for id in 1..=servers {
        children.push(start(program, &[text("server"), text("--id"), id.to_string(), text("--first"), servers.to_string()]));
    }
    let inputs: Inputs = Arc::new(children.iter_mut().map(|child| Mutex::new(child.stdin.take().unwrap())).collect());
    let (done, answers) = channel();
    let readers: Vec<_> = children
        .iter_mut()
        .enumerate()
        .map(|(who, child)| {
            let (told, inputs, done) = (child.stdout.take().unwrap(), inputs.clone(), done.clone());
            thread::spawn(move || carry(who, told, inputs, last, done))
        })
        .collect();
    let begin = Instant::now();
    let mut first = Vec::new();
    for client in 0..open {
        put_request(&mut first, client, 1);
    }
    inputs[1].lock().unwrap().write_all(&first).unwrap();
    let wanted = last * u64::from(open);
    let mut count = 0;
    while count < wanted {
        count += answers.recv().unwrap();
    }
    let seconds = begin.elapsed().as_secs_f64();
    println!("{count} answers in {seconds:.3} s, {:.0} a second", count as f64 / seconds);
    for (who, child) in children.iter_mut().enumerate() {
        let used = processor_seconds(child.id());
        let name = if who == MASTER { text("master") } else { format!("server {who}") };
        println!("{name}: {used:.2} s of a processor, {:.2} us a request", used * 1e6 / count as f64);
        child.kill().unwrap();
        child.wait().unwrap();
    }
    for reader in readers {
        reader.join().unwrap();
    }
}
