//! The same work as main.rt.txt for a PING, in plain Rust: threads that ask a keeper over channels, one for all calls
//! and one for the answers of each, or that take a lock. The words are `channels` or `lock`, how many threads ask, and
//! how often each.
use std::io::Read;
use std::sync::atomic::{AtomicBool, Ordering};
use std::sync::mpsc::{channel, Receiver, Sender};
use std::sync::{Arc, Mutex};
use std::thread;
use std::time::Instant;

#[allow(dead_code)]
enum Command {
    Ping(Option<Vec<u8>>),
    Quit,
}

#[allow(dead_code)]
enum Reply {
    Pong,
    Okay,
    Bulk(Vec<u8>),
}

struct Answer {
    ticket: u64,
    place: u64,
    moment: u64,
    reply: Reply,
}

struct Call {
    lane: usize,
    ticket: u64,
    command: Command,
}

#[derive(Clone, Copy)]
struct Still {
    moment: u64,
}

impl Still {
    fn now(&mut self) -> u64 {
        std::hint::black_box(self.moment)
    }
}

struct Keeper {
    place: u64,
    clock: Still,
}

impl Keeper {
    fn answer(&mut self, ticket: u64, command: Command) -> Answer {
        let place = self.place;
        self.place += 1;
        let reply = match command {
            Command::Ping(None) => Reply::Pong,
            Command::Ping(Some(text)) => Reply::Bulk(text),
            Command::Quit => Reply::Okay,
        };
        Answer { ticket, place, moment: self.clock.now(), reply }
    }
}

trait Port {
    fn ask(&mut self, command: Command) -> Answer;
}

struct Lane {
    lane: usize,
    ticket: u64,
    calls: Sender<Call>,
    answers: Receiver<Answer>,
}

impl Port for Lane {
    fn ask(&mut self, command: Command) -> Answer {
        let ticket = self.ticket;
        self.ticket += 1;
        self.calls.send(Call { lane: self.lane, ticket, command }).unwrap();
        let answer = self.answers.recv().unwrap();
        assert!(answer.ticket == ticket);
        answer
    }
}

struct Locked {
    ticket: u64,
    keeper: Arc<Mutex<Keeper>>,
}

impl Port for Locked {
    fn ask(&mut self, command: Command) -> Answer {
        self.ticket += 1;
        self.keeper.lock().unwrap().answer(self.ticket - 1, command)
    }
}

fn ask<P: Port>(mut port: P, begins: &AtomicBool, times: usize) -> Vec<u64> {
    let mut waits = Vec::new();
    while !begins.load(Ordering::SeqCst) {
        thread::yield_now();
    }
    for _ in 0..times {
        let command = std::hint::black_box(Command::Ping(None));
        let begun = Instant::now();
        let answer = port.ask(command);
        waits.push(begun.elapsed().as_nanos() as u64);
        assert!(matches!(answer.reply, Reply::Pong));
        std::hint::black_box((answer.place, answer.moment));
    }
    waits
}

type Waits = Vec<thread::JoinHandle<Vec<u64>>>;

fn start<P: Port + Send + 'static>(ports: Vec<P>, begins: &Arc<AtomicBool>, times: usize) -> Waits {
    let start_one = |port| {
        let begins = begins.clone();
        thread::spawn(move || ask(port, &begins, times))
    };
    ports.into_iter().map(start_one).collect()
}

fn over_channels(keeper: &mut Keeper, begins: &Arc<AtomicBool>, lanes: usize, times: usize) -> (Waits, Instant) {
    let (calls, asked) = channel();
    let (senders, receivers): (Vec<_>, Vec<_>) = (0..lanes).map(|_| channel()).unzip();
    let lane = |(lane, answers)| Lane { lane, ticket: 0, calls: calls.clone(), answers };
    let threads = start(receivers.into_iter().enumerate().map(lane).collect(), begins, times);
    let begun = Instant::now();
    begins.store(true, Ordering::SeqCst);
    for _ in 0..lanes * times {
        let Call { lane, ticket, command } = asked.recv().unwrap();
        senders[lane].send(keeper.answer(ticket, command)).unwrap();
    }
    (threads, begun)
}

fn under_a_lock(keeper: Keeper, begins: &Arc<AtomicBool>, lanes: usize, times: usize) -> (Waits, Instant) {
    let keeper = Arc::new(Mutex::new(keeper));
    let ports = (0..lanes).map(|_| Locked { ticket: 0, keeper: keeper.clone() }).collect();
    let threads = start(ports, begins, times);
    let begun = Instant::now();
    begins.store(true, Ordering::SeqCst);
    (threads, begun)
}

fn main() {
    let words: Vec<String> = std::env::args().collect();
    let (lanes, times) = (words[2].parse().unwrap(), words[3].parse().unwrap());
    let begins = Arc::new(AtomicBool::new(false));
    let mut keeper = Keeper { place: 0, clock: Still { moment: 1 } };
    let (threads, begun) = match words[1].as_str() {
        "channels" => over_channels(&mut keeper, &begins, lanes, times),
        _ => under_a_lock(keeper, &begins, lanes, times),
    };
    let mut waits: Vec<u64> = threads.into_iter().flat_map(|thread| thread.join().unwrap()).collect();
    println!("{}", begun.elapsed().as_nanos());
    std::io::stdin().read_to_end(&mut Vec::new()).unwrap();
    waits.sort_unstable();
    let quantile = |thousandths| waits[waits.len() / 1000 * thousandths];
    println!("{} {} {}", quantile(500), quantile(990), waits[waits.len() - 1]);
}
