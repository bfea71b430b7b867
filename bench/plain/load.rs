// The workload of docs/LOAD.md on a plain hub under one Mutex: maps and queues of std, nothing proved. The first word is
// how many rounds are run, each on a new hub. Counts and octets go to standard output, rates to standard error.
use std::collections::{HashMap, VecDeque};
use std::sync::Mutex;
use std::time::Instant;

const ROWS: usize = 1024;
const OUTBOX: usize = 64;

#[derive(Clone, Copy)]
struct Identity {
    vmac: [u8; 6],
    device: [u8; 16],
    max_bvlc: usize,
}

struct Row {
    vmac: [u8; 6],
    device: [u8; 16],
    max_bvlc: usize,
    live: bool,
    outbox: VecDeque<Vec<u8>>,
}

#[derive(Default, Clone, Copy, PartialEq)]
struct Counts {
    joined: u64,
    replaced: u64,
    refused: u64,
    unicasts: u64,
    appended: u64,
    dropped: u64,
    full: u64,
}

#[derive(Default)]
struct Hub {
    rows: HashMap<u64, Row>,
    by_vmac: HashMap<[u8; 6], u64>,
    by_device: HashMap<[u8; 16], u64>,
    next: u64,
    stopped: bool,
    counts: Counts,
}

impl Hub {
    fn end(&mut self, conn: u64) {
        if let Some(row) = self.rows.get_mut(&conn) {
            if row.live {
                row.live = false;
                self.by_vmac.remove(&row.vmac);
                self.by_device.remove(&row.device);
            }
        }
    }

    fn connect(&mut self, who: Identity) -> Option<u64> {
        let held = self.by_vmac.get(&who.vmac).map(|c| self.rows[c].device != who.device);
        if self.stopped || held == Some(true) || self.rows.len() >= ROWS {
            self.counts.refused += 1;
            return None;
        }
        if let Some(old) = self.by_device.get(&who.device).copied() {
            self.end(old);
            self.counts.replaced += 1;
        }
        self.next += 1;
        let conn = self.next;
        self.by_vmac.insert(who.vmac, conn);
        self.by_device.insert(who.device, conn);
        self.rows.insert(
            conn,
            Row {
                vmac: who.vmac,
                device: who.device,
                max_bvlc: who.max_bvlc,
                live: true,
                outbox: VecDeque::with_capacity(OUTBOX),
            },
        );
        self.counts.joined += 1;
        Some(conn)
    }

    fn forward(&mut self, sender: u64, frame: Vec<u8>, to: [u8; 6]) {
        self.counts.unicasts += 1;
        let live = !self.stopped && self.rows.get(&sender).is_some_and(|row| row.live);
        let Some(conn) = self.by_vmac.get(&to).copied().filter(|_| live) else {
            self.counts.dropped += 1;
            return;
        };
        let row = self.rows.get_mut(&conn).unwrap();
        if frame.len() > row.max_bvlc {
            self.counts.dropped += 1;
        } else if row.outbox.len() == OUTBOX {
            self.counts.dropped += 1;
            self.counts.full += 1;
            self.end(conn);
        } else {
            row.outbox.push_back(frame);
            self.counts.appended += 1;
        }
    }

    fn take(&mut self, conn: u64) -> Option<Vec<u8>> {
        self.rows.get_mut(&conn)?.outbox.pop_front()
    }

    fn leave(&mut self, conn: u64) {
        self.end(conn);
        self.rows.remove(&conn);
    }
}

fn peer(n: u16) -> Identity {
    let [high, low] = n.to_be_bytes();
    let mut device = [0; 16];
    device[14] = high;
    device[15] = low;
    Identity {
        vmac: [2, 0, 0, 1, high, low],
        device,
        max_bvlc: 1600,
    }
}

/// Forward k of worker i.
fn frame(i: u16, k: u16, to: &[u8; 6]) -> Vec<u8> {
    let mut message = Vec::with_capacity(10);
    message.extend_from_slice(&[1, 4]);
    message.extend_from_slice(&k.to_be_bytes());
    message.extend_from_slice(to);
    for j in 0..1 + k % 64 {
        message.push(((u32::from(i) + u32::from(k) + u32::from(j)) % 256) as u8);
    }
    message
}

/// A frame as it is passed on: under the address of its sender.
fn out(message: &[u8], from: &[u8; 6]) -> Option<(Vec<u8>, [u8; 6])> {
    if message.len() < 10 || message[0] != 1 || message[1] != 4 {
        return None;
    }
    let mut passed = Vec::with_capacity(message.len());
    passed.extend_from_slice(&[1, 8]);
    passed.extend_from_slice(&message[2..4]);
    passed.extend_from_slice(from);
    passed.extend_from_slice(&message[10..]);
    Some((passed, message[4..10].try_into().unwrap()))
}

fn work(hub: &Mutex<Hub>, i: u16) -> Option<u64> {
    let (sender, receiver) = (peer(2 * i + 1), peer(2 * i + 2));
    let from = hub.lock().unwrap().connect(sender)?;
    let to = hub.lock().unwrap().connect(receiver)?;
    let mut octets = 0;
    for k in 0..1000 {
        let message = frame(i, k, &receiver.vmac);
        let (passed, address) = out(&message, &sender.vmac)?;
        hub.lock().unwrap().forward(from, passed, address);
        loop {
            let taken = hub.lock().unwrap().take(to);
            match taken {
                Some(frame) => octets += frame.len() as u64 - 10,
                None => break,
            }
        }
    }
    hub.lock().unwrap().leave(to);
    hub.lock().unwrap().leave(from);
    Some(octets)
}

fn load(workers: u16) -> Option<(Counts, u64)> {
    let hub = Mutex::new(Hub::default());
    let hub_ref = &hub;
    let octets = std::thread::scope(|scope| {
        let works: Vec<_> = (0..workers).map(|i| scope.spawn(move || work(hub_ref, i))).collect();
        works.into_iter().map(|it| it.join().unwrap()).sum::<Option<u64>>()
    })?;
    let mut hub = hub.into_inner().unwrap();
    hub.stopped = true;
    Some((hub.counts, octets))
}

fn main() {
    let rounds: u64 = std::env::args().nth(1).and_then(|word| word.parse().ok()).unwrap_or(1);
    for workers in [1, 2, 4, 8, 16, 32, 64] {
        let start = Instant::now();
        let mut last = None;
        for _ in 0..rounds {
            last = load(workers);
        }
        let micros = start.elapsed().as_micros().max(1) as u64;
        match last {
            None => println!("{workers} workers: cut short"),
            Some((c, octets)) => {
                println!(
                    "{workers} workers: {} joined, {} refused, {} unicasts, {} appended, {} dropped, {octets} octets",
                    c.joined, c.refused, c.unicasts, c.appended, c.dropped
                );
                eprintln!(
                    "{workers} workers: {} frames a second",
                    (rounds * u64::from(workers) * 1000).saturating_mul(1_000_000) / micros
                );
            }
        }
    }
}
