//! Plain framing (RFC 6455, section 5.2), to be measured beside the links of `bsc_ws`: heads and masks by hand, nothing
//! proved. It has a hub's end alone, which receives masked frames and puts unmasked ones.
//!
//! It does what `bench_links memory` does with the same messages over the same stream in memory, and writes the same lines. It
//! takes binary messages in one frame, refuses everything else, and has no handshake, no pings and no closing. Built by
//! `rustc -O bench/plain/links.rs`; see `bench/measure-links`.

use std::env;
use std::io::{self, Error, ErrorKind, Read, Write};
use std::time::Duration;

const MESSAGES: usize = 64;
const GREATEST_MESSAGE: u64 = 131_072;
const BUFFER: usize = 8_192;

/// The messages of so many octets: octet j of message k is 31 k + 7 j, modulo 251.
fn messages(octets: usize) -> Vec<Vec<u8>> {
    (0..MESSAGES)
        .map(|k| (0..octets).map(|j| ((31 * k + 7 * j) % 251) as u8).collect())
        .collect()
}

fn push_head(frames: &mut Vec<u8>, octets: usize, bit: u8) {
    frames.push(0x82);
    if octets < 126 {
        frames.push(octets as u8 | bit);
    } else if octets < 65_536 {
        frames.push(126 | bit);
        frames.extend_from_slice(&(octets as u16).to_be_bytes());
    } else {
        frames.push(127 | bit);
        frames.extend_from_slice(&(octets as u64).to_be_bytes());
    }
}

fn unmasked(messages: &[Vec<u8>]) -> Vec<u8> {
    let mut frames = Vec::new();
    for message in messages {
        push_head(&mut frames, message.len(), 0);
        frames.extend_from_slice(message);
    }
    frames
}

fn masked(messages: &[Vec<u8>]) -> Vec<u8> {
    let mut frames = Vec::new();
    for (number, message) in messages.iter().enumerate() {
        push_head(&mut frames, message.len(), 0x80);
        let mask = [number as u8 ^ 0x37, 0xFA, number as u8 ^ 0x21, 0x3D];
        frames.extend_from_slice(&mask);
        frames.extend(message.iter().enumerate().map(|(place, octet)| octet ^ mask[place % 4]));
    }
    frames
}

/// Puts a mask on or takes it off, four octets at a time.
fn unmask(message: &mut [u8], mask: [u8; 4]) {
    let key = u32::from_ne_bytes(mask);
    let mut fours = message.chunks_exact_mut(4);
    for four in &mut fours {
        let four: &mut [u8; 4] = four.try_into().unwrap();
        *four = (u32::from_ne_bytes(*four) ^ key).to_ne_bytes();
    }
    for (octet, key) in fours.into_remainder().iter_mut().zip(mask) {
        *octet ^= key;
    }
}

/// Gives some octets again and again, and takes no others than those which it is to be given, again and again.
struct Cycle<'a> {
    gives: &'a [u8],
    left: &'a [u8],
    takes: &'a [u8],
    due: &'a [u8],
}

impl Read for Cycle<'_> {
    fn read(&mut self, buf: &mut [u8]) -> io::Result<usize> {
        let n = self.left.len().min(buf.len());
        let (now, later) = self.left.split_at(n);
        buf[..n].copy_from_slice(now);
        self.left = if later.is_empty() { self.gives } else { later };
        Ok(n)
    }
}

impl Write for Cycle<'_> {
    fn write(&mut self, buf: &[u8]) -> io::Result<usize> {
        let n = self.due.len().min(buf.len());
        let (now, later) = self.due.split_at(n);
        if now != &buf[..n] {
            return Err(Error::from(ErrorKind::InvalidData));
        }
        self.due = if later.is_empty() { self.takes } else { later };
        Ok(n)
    }

    fn flush(&mut self) -> io::Result<()> {
        Ok(())
    }
}

struct Link<S> {
    stream: S,
    input: Vec<u8>,
    begin: usize,
    output: Vec<u8>,
}

impl<S: Read + Write> Link<S> {
    /// Reads until so many octets are there.
    fn fill(&mut self, octets: usize) -> io::Result<()> {
        if octets <= self.input.len() - self.begin {
            return Ok(());
        }
        self.input.drain(..self.begin);
        self.begin = 0;
        while self.input.len() < octets {
            let end = self.input.len();
            self.input.resize(end + BUFFER, 0);
            let n = self.stream.read(&mut self.input[end..])?;
            self.input.truncate(end + n);
            if n == 0 {
                return Err(Error::from(ErrorKind::UnexpectedEof));
            }
        }
        Ok(())
    }

    fn receive(&mut self) -> io::Result<Vec<u8>> {
        self.fill(2)?;
        let (first, second) = (self.input[self.begin], self.input[self.begin + 1]);
        if first != 0x82 || second & 0x80 == 0 {
            return Err(Error::from(ErrorKind::InvalidData));
        }
        let more = match second & 0x7F {
            126 => 2,
            127 => 8,
            _ => 0,
        };
        let head = 2 + more + 4;
        self.fill(head)?;
        let at = self.begin + 2;
        let length = match more {
            0 => u64::from(second & 0x7F),
            _ => self.input[at..at + more].iter().fold(0, |sum, octet| sum << 8 | u64::from(*octet)),
        };
        if GREATEST_MESSAGE < length {
            return Err(Error::from(ErrorKind::InvalidData));
        }
        let length = length as usize;
        self.fill(head + length)?;
        let mask: [u8; 4] = self.input[self.begin + head - 4..self.begin + head].try_into().unwrap();
        let begin = self.begin + head;
        let mut message = self.input[begin..begin + length].to_vec();
        unmask(&mut message, mask);
        self.begin = begin + length;
        Ok(message)
    }

    fn put(&mut self, message: &[u8]) -> io::Result<()> {
        self.output.clear();
        push_head(&mut self.output, message.len(), 0);
        self.output.extend_from_slice(message);
        self.stream.write_all(&self.output)?;
        self.stream.flush()
    }
}

/// The processor's time that this process has used.
fn used() -> Duration {
    #[repr(C)]
    struct Timespec {
        seconds: i64,
        nanos: i64,
    }
    extern "C" {
        fn clock_gettime(clock: i32, time: *mut Timespec) -> i32;
    }
    const PROCESS: i32 = 2;
    let mut time = Timespec { seconds: 0, nanos: 0 };
    unsafe { clock_gettime(PROCESS, &mut time) };
    Duration::new(time.seconds as u64, time.nanos as u32)
}

fn rate(messages: u64, time: Duration) -> u64 {
    messages * 1_000_000 / (time.as_micros() as u64).max(1)
}

fn measure(octets: usize, count: u64) {
    let all = messages(octets);
    let (gives, takes) = (masked(&all), unmasked(&all));
    let mut link = Link {
        stream: Cycle { gives: &gives, left: &gives, takes: &takes, due: &takes },
        input: Vec::new(),
        begin: 0,
        output: Vec::new(),
    };
    let start = used();
    let same = (0..count)
        .filter(|number| link.receive().is_ok_and(|m| m == all[*number as usize % MESSAGES]))
        .count() as u64;
    let between = used();
    let taken = (0..count)
        .filter(|number| link.put(&all[*number as usize % MESSAGES]).is_ok())
        .count() as u64;
    let end = used();
    println!("received, {octets} octets: {same} of {count} as they are to be");
    println!("put, {octets} octets: {taken} of {count} as they are to be");
    eprintln!("received, {octets} octets: {} messages a second", rate(same, between - start));
    eprintln!("put, {octets} octets: {} messages a second", rate(taken, end - between));
}

fn main() {
    let count = env::args().nth(1).and_then(|word| word.parse().ok()).unwrap_or(1_000);
    measure(50, count);
    measure(1_500, count);
}
