//! A plain hub of one thread, to be measured beside `bsc_desk`: std's maps and queues, nothing proved.
//!
//! It does what `bench_hub desk` does with the same members and messages, and writes the same lines. Built by
//! `rustc -O bench/plain/desk.rs`; see `bench/measure-desk`.

use std::collections::{HashMap, VecDeque};
use std::env;
use std::time::{Duration, Instant};

const OUTBOX: usize = 16;
const BROADCAST: [u8; 6] = [255; 6];

struct Row {
    address: [u8; 6],
    device: [u8; 16],
    max_bvlc: u16,
    waiting: VecDeque<Vec<u8>>,
    taken: u64,
    live: bool,
}

#[derive(Default)]
struct Counts {
    joined: u64,
    unicasts: u64,
    broadcasts: u64,
    appended: u64,
    dropped: u64,
    full: u64,
    missed: u64,
}

/// Rows by the numbers of their connections, and the live ones by address and by device.
#[derive(Default)]
struct Desk {
    rows: Vec<Row>,
    by_address: HashMap<[u8; 6], usize>,
    by_device: HashMap<[u8; 16], usize>,
    counts: Counts,
}

/// The message as it is passed on from `from`.
fn forwarded(message: &[u8], from: [u8; 6]) -> Vec<u8> {
    let all = message[4..10] == BROADCAST;
    let flags = if all { message[1] | 8 } else { (message[1] | 8) & 251 };
    let mut out = Vec::with_capacity(message.len() + 6);
    out.extend_from_slice(&[message[0], flags, message[2], message[3]]);
    out.extend_from_slice(&from);
    if all {
        out.extend_from_slice(&BROADCAST);
    }
    out.extend_from_slice(&message[10..]);
    out
}

impl Desk {
    fn connect(&mut self, address: [u8; 6], device: [u8; 16], max_bvlc: u16) -> Option<usize> {
        if let Some(&holder) = self.by_address.get(&address) {
            if self.rows[holder].device != device {
                return None;
            }
        }
        if let Some(replaced) = self.by_device.remove(&device) {
            let row = &mut self.rows[replaced];
            row.live = false;
            self.by_address.remove(&row.address);
        }
        let conn = self.rows.len();
        let waiting = VecDeque::with_capacity(OUTBOX);
        self.rows.push(Row { address, device, max_bvlc, waiting, taken: 0, live: true });
        self.by_address.insert(address, conn);
        self.by_device.insert(device, conn);
        self.counts.joined += 1;
        Some(conn)
    }

    fn end(&mut self, conn: usize) {
        let row = &mut self.rows[conn];
        row.live = false;
        self.by_address.remove(&row.address);
        self.by_device.remove(&row.device);
        self.counts.full += 1;
    }

    fn forward_one(&mut self, conn: usize, message: &[u8]) -> bool {
        self.counts.unicasts += 1;
        let frame = forwarded(message, self.rows[conn].address);
        let to: [u8; 6] = message[4..10].try_into().unwrap();
        let holder = match self.by_address.get(&to) {
            Some(&holder) if self.rows[conn].live => holder,
            _ => {
                self.counts.dropped += 1;
                return false;
            }
        };
        let row = &mut self.rows[holder];
        if (row.max_bvlc as usize) < frame.len() {
            self.counts.dropped += 1;
            return false;
        }
        if row.waiting.len() == OUTBOX {
            self.counts.dropped += 1;
            self.end(holder);
            return false;
        }
        row.waiting.push_back(frame);
        self.counts.appended += 1;
        true
    }

    /// The connections whose outboxes it joined, in the order of joining.
    fn forward_all(&mut self, conn: usize, message: &[u8]) -> Vec<usize> {
        self.counts.broadcasts += 1;
        let frame = forwarded(message, self.rows[conn].address);
        let mut to = Vec::new();
        for (number, row) in self.rows.iter_mut().enumerate() {
            if !row.live || number == conn || (row.max_bvlc as usize) < frame.len() {
                continue;
            }
            if row.waiting.len() == OUTBOX {
                self.counts.missed += 1;
            } else {
                row.waiting.push_back(frame.clone());
                to.push(number);
            }
        }
        self.counts.appended += to.len() as u64;
        self.counts.dropped += u64::from(to.is_empty());
        to
    }

    fn take(&mut self, conn: usize) -> Option<Vec<u8>> {
        let row = &mut self.rows[conn];
        let frame = row.waiting.pop_front()?;
        row.taken += 1;
        Some(frame)
    }
}

fn address(member: u16) -> [u8; 6] {
    let [high, low] = member.to_be_bytes();
    [2, 0, 0, 0, high, low]
}

fn device(member: u16) -> [u8; 16] {
    let [high, low] = member.to_be_bytes();
    [1, 0, 0, 0, 0, 0, 0, 0, 0, 0, 0, 0, 0, 0, high, low]
}

fn message(to: [u8; 6]) -> [u8; 40] {
    let mut octets = [0; 40];
    octets[..4].copy_from_slice(&[1, 4, 0, 7]);
    octets[4..10].copy_from_slice(&to);
    for (place, octet) in octets[10..].iter_mut().enumerate() {
        *octet = place as u8 + 1;
    }
    octets
}

#[derive(Default)]
struct Tally {
    appended: u64,
    taken: u64,
    octets: u64,
}

impl Tally {
    fn take(&mut self, desk: &mut Desk, conn: usize) {
        if let Some(frame) = desk.take(conn) {
            self.taken += 1;
            self.octets += frame.iter().map(|octet| u64::from(*octet)).sum::<u64>();
        }
    }
}

fn fill(rows: u16) -> (Desk, usize, Vec<usize>) {
    let mut desk = Desk::default();
    let mut join = |member| desk.connect(address(member), device(member), 1497).unwrap();
    let sender = join(1);
    let others = (2..=rows).map(join).collect();
    (desk, sender, others)
}

fn unicasts(desk: &mut Desk, sender: usize, others: &[usize], rounds: u32) -> Tally {
    let mut tally = Tally::default();
    for _round in 0..rounds {
        for (place, conn) in others.iter().enumerate() {
            let appended = desk.forward_one(sender, &message(address(place as u16 + 2)));
            tally.appended += u64::from(appended);
            tally.take(desk, *conn);
        }
    }
    tally
}

fn broadcasts(desk: &mut Desk, sender: usize, others: &[usize], rounds: u32) -> Tally {
    let mut tally = Tally::default();
    for _round in 0..rounds {
        tally.appended += desk.forward_all(sender, &message(BROADCAST)).len() as u64;
        for conn in others {
            tally.take(desk, *conn);
        }
    }
    tally
}

fn tell(name: &str, rows: u16, tally: Tally, time: Duration) {
    let rate = tally.appended * 1_000_000 / (time.as_micros() as u64).max(1);
    println!(
        "{name}, {rows} rows: {} appended, {} taken, octets add up to {}",
        tally.appended, tally.taken, tally.octets
    );
    eprintln!("{name}, {rows} rows: {rate} frames a second");
}

fn main() {
    let frames = env::args().nth(1).and_then(|word| word.parse::<u32>().ok()).unwrap_or(3_000);
    for rows in [10, 100, 1000] {
        let (mut desk, sender, others) = fill(rows);
        let start = Instant::now();
        let tally = unicasts(&mut desk, sender, &others, frames / u32::from(rows - 1));
        tell("unicasts", rows, tally, start.elapsed());
    }
    for rows in [10, 100, 1000] {
        let (mut desk, sender, others) = fill(rows);
        let start = Instant::now();
        let tally = broadcasts(&mut desk, sender, &others, frames / u32::from(rows - 1));
        tell("broadcasts", rows, tally, start.elapsed());
    }
}
