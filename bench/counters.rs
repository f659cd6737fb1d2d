//! What `bench/counters.sh` compares the shared table with, in plain Rust, with nothing proved: clients on threads of their
//! own add to one counter.
//!
//!     counters slots|mutex|channel clients size batches
//!
//! `slots`: through a trustee on a thread of its own, with two words and a slot for each client, in which requests and
//! answers are written where they are read. `mutex`: each client locks the counter for each request. `channel`: each
//! client sends its requests one by one to the owner of the counter, and awaits the replies behind each batch.

use std::cell::UnsafeCell;
use std::hint::spin_loop;
use std::sync::atomic::{AtomicU64, Ordering::SeqCst};
use std::sync::{mpsc, Mutex};
use std::thread;
use std::time::Instant;

const MOST: usize = 16;
const SPINS: u32 = 256;

#[derive(Clone, Copy)]
struct Name {
    id: u64,
    place: u32,
}

/// The runtime's operations on a counter, its replies, requests and answers, so that as many bytes go round.
#[allow(dead_code)]
#[derive(Clone, Copy)]
enum Op {
    Add(u64),
    Read,
}

#[allow(dead_code)]
#[derive(Clone, Copy)]
enum Reply {
    Is(u64),
    Refused,
    NoMemory,
}

#[allow(dead_code)]
#[derive(Clone, Copy)]
enum Request {
    Entrust(u64),
    Apply(Name, Op),
    Launch(Name, u64),
    Grant(Name, u32),
    Release(Name),
    Reclaim(Name),
    Bye,
}

#[allow(dead_code)]
#[derive(Clone, Copy)]
enum Answer {
    Entrusted(Name),
    NotEntrusted(u64),
    Replied(Reply),
    Launched(u64),
    Refused,
    ByeDone,
}

struct Slot {
    count: usize,
    requests: [Request; MOST],
    answers: [Answer; MOST],
}

#[repr(align(128))]
struct Word(AtomicU64);

#[repr(align(128))]
struct Place {
    request: Word,
    response: Word,
    slot: UnsafeCell<Slot>,
}

// The words say whose the slot is.
unsafe impl Sync for Place {}

struct Waiting(u32);

impl Waiting {
    fn pause(&mut self) {
        self.0 = self.0.wrapping_add(1);
        if self.0 % SPINS == 0 {
            thread::yield_now();
        } else {
            spin_loop();
        }
    }
}

fn place() -> Place {
    Place {
        request: Word(AtomicU64::new(0)),
        response: Word(AtomicU64::new(0)),
        slot: UnsafeCell::new(Slot {
            count: 0,
            requests: [Request::Bye; MOST],
            answers: [Answer::ByeDone; MOST],
        }),
    }
}

/// Serves all places until each has said Bye.
fn serve(places: &[Place]) {
    let mut objects = vec![(1u64, 0u64)];
    let mut words = vec![0u64; places.len()];
    let mut left = places.len();
    let mut waiting = Waiting(0);
    while left > 0 {
        let mut moved = false;
        for (place, word) in places.iter().zip(&mut words) {
            if place.request.0.load(SeqCst) == *word {
                continue;
            }
            let slot = unsafe { &mut *place.slot.get() };
            for (request, answer) in slot.requests.iter().zip(&mut slot.answers).take(slot.count) {
                *answer = match request {
                    Request::Apply(name, op) => {
                        let object = &mut objects[name.place as usize];
                        assert_eq!(object.0, name.id);
                        if let Op::Add(by) = op {
                            object.1 = object.1.wrapping_add(*by);
                        }
                        Answer::Replied(Reply::Is(object.1))
                    }
                    Request::Bye => {
                        left -= 1;
                        Answer::ByeDone
                    }
                    _ => Answer::Refused,
                };
            }
            *word = 1 - *word;
            place.response.0.store(*word, SeqCst);
            moved = true;
        }
        if moved {
            waiting = Waiting(0);
        } else {
            waiting.pause();
        }
    }
}

/// Hands the requests of the slot over, and waits for the answers.
fn hand_over(place: &Place, word: &mut u64) {
    *word = 1 - *word;
    place.request.0.store(*word, SeqCst);
    let mut waiting = Waiting(0);
    while place.response.0.load(SeqCst) != *word {
        waiting.pause();
    }
}

fn ask(place: &Place, size: usize, rounds: u64) -> u64 {
    let name = Name { id: 1, place: 0 };
    let mut word = 0;
    let mut last = 0;
    for _ in 0..rounds {
        let slot = unsafe { &mut *place.slot.get() };
        slot.count = size;
        for (request, by) in slot.requests.iter_mut().zip(1..).take(size) {
            *request = Request::Apply(name, Op::Add(by));
        }
        hand_over(place, &mut word);
        let slot = unsafe { &*place.slot.get() };
        for (answer, by) in slot.answers.iter().zip(1..).take(size) {
            let Answer::Replied(Reply::Is(sum)) = answer else {
                panic!("no sum")
            };
            let added = sum - last;
            assert!(added == by || by == 1 && added > by, "in order");
            last = *sum;
        }
    }
    let slot = unsafe { &mut *place.slot.get() };
    slot.count = 1;
    slot.requests[0] = Request::Bye;
    hand_over(place, &mut word);
    last
}

fn slots(clients: usize, size: usize, rounds: u64) -> u64 {
    let places: Vec<Place> = (0..clients).map(|_| place()).collect();
    thread::scope(|scope| {
        scope.spawn(|| serve(&places));
        let asking: Vec<_> = places
            .iter()
            .map(|place| scope.spawn(move || ask(place, size, rounds)))
            .collect();
        asking.into_iter().map(|it| it.join().unwrap()).max().unwrap()
    })
}

fn mutex(clients: usize, size: usize, rounds: u64) -> u64 {
    let counter = Mutex::new(0u64);
    thread::scope(|scope| {
        for _ in 0..clients {
            scope.spawn(|| {
                let mut last = 0;
                for _ in 0..rounds {
                    for by in 1..=size as u64 {
                        let mut sum = counter.lock().unwrap();
                        *sum = sum.wrapping_add(by);
                        assert!(*sum > last, "in order");
                        last = *sum;
                    }
                }
            });
        }
    });
    let sum = *counter.lock().unwrap();
    sum
}

fn channel(clients: usize, size: usize, rounds: u64) -> u64 {
    let (to_owner, requests) = mpsc::channel::<(usize, u64)>();
    let (to_clients, replies): (Vec<_>, Vec<_>) = (0..clients).map(|_| mpsc::channel()).unzip();
    thread::scope(|scope| {
        let owner = scope.spawn(move || {
            let mut sum = 0u64;
            for (client, by) in requests {
                sum = sum.wrapping_add(by);
                to_clients[client].send(sum).unwrap();
            }
            sum
        });
        for (client, replies) in replies.into_iter().enumerate() {
            let to_owner = to_owner.clone();
            scope.spawn(move || {
                let mut last = 0;
                for _ in 0..rounds {
                    for by in 1..=size as u64 {
                        to_owner.send((client, by)).unwrap();
                    }
                    for _ in 0..size {
                        let sum = replies.recv().unwrap();
                        assert!(sum > last, "in order");
                        last = sum;
                    }
                }
            });
        }
        drop(to_owner);
        owner.join().unwrap()
    })
}

fn main() {
    let words: Vec<String> = std::env::args().collect();
    let number = |n: usize| words[n].parse::<u64>().unwrap();
    let (clients, size, rounds) = (number(2), number(3), number(4));
    let run = match words[1].as_str() {
        "slots" => slots,
        "mutex" => mutex,
        _ => channel,
    };
    let start = Instant::now();
    let sum = run(clients as usize, size as usize, rounds);
    let micros = start.elapsed().as_micros() as u64;
    assert_eq!(sum, clients * rounds * size * (size + 1) / 2);
    eprintln!("{} operations a second", clients * rounds * size * 1_000_000 / micros.max(1));
}
