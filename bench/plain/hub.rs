//! A plain hub behind one `Mutex`, to be measured beside `bsc_hub`: a `HashMap` of connections by VMAC and one by
//! their numbers, a `VecDeque` an outbox, nothing proved.
//!
//! It does what `bench_hub hub` does with the same members and messages, and writes the same lines. The threads
//! stand in a circle. Each sends unicasts to the next and takes those of the one before, and is at most eight
//! frames ahead of what it took. Built by `rustc -O bench/plain/hub.rs`; see `bench/measure-hub`.

use std::collections::{HashMap, VecDeque};
use std::env;
use std::sync::Mutex;
use std::thread;
use std::time::Instant;

const OUTBOX: usize = 64;
const CALLS: u64 = 1 << 50;
const AHEAD: u64 = 8;
const BROADCAST: [u8; 6] = [255; 6];

type Vmac = [u8; 6];

struct Connection {
    vmac: Vmac,
    max_bvlc: u16,
    live: bool,
    outbox: VecDeque<Vec<u8>>,
}

#[derive(Default)]
struct Counts {
    joined: u64,
    unicasts: u64,
    appended: u64,
    dropped: u64,
    full: u64,
}

#[derive(Default)]
struct Hub {
    stopped: bool,
    made: u64,
    by_vmac: HashMap<Vmac, u64>,
    connections: HashMap<u64, Connection>,
    counts: Counts,
}

#[derive(PartialEq, Eq)]
enum Reply {
    Appended,
    Full,
    TooLong,
    NoHolder,
    NotCurrent,
    Stopped,
    Worn,
}

impl Hub {
    fn connect(&mut self, vmac: Vmac) -> u64 {
        self.made += 1;
        self.counts.joined += 1;
        let conn = self.counts.joined;
        self.by_vmac.insert(vmac, conn);
        let outbox = VecDeque::with_capacity(OUTBOX);
        self.connections.insert(conn, Connection { vmac, max_bvlc: 1024, live: true, outbox });
        conn
    }

    /// The frame joins the outbox of the holder of its destination.
    fn forward(&mut self, conn: u64, destination: Vmac, frame: Vec<u8>) -> Reply {
        if self.made >= CALLS {
            return Reply::Worn;
        }
        self.made += 1;
        self.counts.unicasts += 1;
        let reply = self.offer(conn, destination, frame);
        match reply {
            Reply::Appended => self.counts.appended += 1,
            _ => self.counts.dropped += 1,
        }
        reply
    }

    fn offer(&mut self, conn: u64, destination: Vmac, frame: Vec<u8>) -> Reply {
        if self.stopped {
            return Reply::Stopped;
        }
        if !self.connections.get(&conn).is_some_and(|sender| sender.live) {
            return Reply::NotCurrent;
        }
        let holder = self.by_vmac.get(&destination);
        let Some(holder) = holder.and_then(|holder| self.connections.get_mut(holder)) else {
            return Reply::NoHolder;
        };
        if usize::from(holder.max_bvlc) < frame.len() {
            return Reply::TooLong;
        }
        if holder.outbox.len() == OUTBOX {
            holder.live = false;
            self.by_vmac.remove(&holder.vmac);
            self.counts.full += 1;
            return Reply::Full;
        }
        holder.outbox.push_back(frame);
        Reply::Appended
    }

    fn take(&mut self, conn: u64) -> Option<Vec<u8>> {
        self.connections.get_mut(&conn)?.outbox.pop_front()
    }
}

fn address(last: u8) -> Vmac {
    [2, 0, 0, 0, 0, last]
}

fn message(to: Vmac) -> [u8; 40] {
    let mut octets = [0; 40];
    octets[..4].copy_from_slice(&[1, 4, 0, 7]);
    octets[4..10].copy_from_slice(&to);
    for (place, octet) in octets[10..].iter_mut().enumerate() {
        *octet = place as u8 + 1;
    }
    octets
}

/// The message as it is passed on from `from`.
fn forwarded(message: &[u8], from: Vmac) -> Vec<u8> {
    let all = message[4..10] == BROADCAST;
    let flags = if all { message[1] | 8 } else { (message[1] | 8) & 251 };
    let mut out = Vec::with_capacity(message.len() + 6);
    out.extend_from_slice(&[message[0], flags, message[2], message[3]]);
    out.extend_from_slice(&from);
    if all {
        out.extend_from_slice(&BROADCAST);
    }
    out.extend_from_slice(&message[10..]);
    out
}

#[derive(Clone, Copy, Default)]
struct Taken {
    frames: u64,
    octets: u64,
}

fn exchange(hub: &Mutex<Hub>, conn: u64, from: u8, to: u8, frames: u64) -> Taken {
    let mut sent = 0;
    let mut taken = Taken::default();
    while sent < frames || taken.frames < frames {
        let may_send = sent < frames && sent < taken.frames + AHEAD;
        if may_send {
            let message = message(address(to));
            let frame = forwarded(&message, address(from));
            let destination = message[4..10].try_into().unwrap();
            let _reply = hub.lock().unwrap().forward(conn, destination, frame);
            sent += 1;
        }
        let next = hub.lock().unwrap().take(conn);
        match next {
            Some(frame) => {
                taken.frames += 1;
                taken.octets += frame.iter().map(|octet| u64::from(*octet)).sum::<u64>();
            }
            None if !may_send => thread::yield_now(),
            None => {}
        }
    }
    taken
}

fn circle(threads: u8, frames: u64) -> (u64, Taken) {
    let hub = Mutex::new(Hub::default());
    let conns: Vec<u64> = (1..=threads).map(|last| hub.lock().unwrap().connect(address(last))).collect();
    let mut all = Taken::default();
    thread::scope(|scope| {
        let hub = &hub;
        let running: Vec<_> = (1..=threads)
            .zip(conns)
            .map(|(last, conn)| scope.spawn(move || exchange(hub, conn, last, last % threads + 1, frames)))
            .collect();
        for thread in running {
            let taken = thread.join().unwrap();
            all.frames += taken.frames;
            all.octets += taken.octets;
        }
    });
    let hub = hub.into_inner().unwrap();
    (hub.counts.appended, all)
}

fn main() {
    let frames = env::args().nth(1).and_then(|word| word.parse().ok()).unwrap_or(1_000);
    for (threads, name) in [(1, "1 thread"), (2, "2 threads"), (4, "4 threads")] {
        let start = Instant::now();
        let (appended, taken) = circle(threads, frames);
        let micros = (start.elapsed().as_micros() as u64).max(1);
        println!(
            "{name}: {appended} appended, {} taken, octets add up to {}",
            taken.frames, taken.octets
        );
        eprintln!("{name}: {} frames a second", taken.frames * 1_000_000 / micros);
    }
}
