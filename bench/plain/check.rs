// The lines of `check`, answered by an ordinary program without proofs: the same lines, limits and answers as `bsc check`.
use std::io::{BufRead, BufReader, BufWriter, Write};

#[derive(Clone, Copy, PartialEq)]
enum Phase { Request, Accept, Connected, Disconnecting }

#[derive(Clone, Copy)]
enum Place { Hub, Node([u8; 6]), Direct([u8; 6], Option<[u8; 6]>) }

enum Verdict { Pass, Carry, Silent(&'static str), Nak(&'static str, Vec<u8>) }

const BROADCAST: [u8; 6] = [255; 6];

fn digit(c: u8) -> Option<u8> {
    match c { b'0'..=b'9' => Some(c - b'0'), b'a'..=b'f' => Some(c - b'a' + 10), b'A'..=b'F' => Some(c - b'A' + 10), _ => None }
}

fn octets(word: &[u8], high: &mut Option<u8>, into: &mut Vec<u8>) -> Option<()> {
    for &c in word {
        let d = digit(c)?;
        match high.take() { None => *high = Some(d), Some(h) => into.push(h * 16 + d) }
    }
    Some(())
}

fn vmac(word: &[u8]) -> Option<[u8; 6]> {
    let (mut high, mut all) = (None, Vec::new());
    octets(word, &mut high, &mut all)?;
    if high.is_some() { return None; }
    all.try_into().ok()
}

fn place(word: &[u8]) -> Option<Place> {
    if word == b"hub" { return Some(Place::Hub); }
    if let Some(v) = word.strip_prefix(b"node:") { return Some(Place::Node(vmac(v)?)); }
    let rest = word.strip_prefix(b"direct:")?;
    let at = rest.iter().position(|&c| c == b':')?;
    let peer = &rest[at + 1..];
    Some(Place::Direct(vmac(&rest[..at])?, if peer == b"-" { None } else { Some(vmac(peer)?) }))
}

fn number(word: &[u8]) -> Option<u64> {
    if word.is_empty() || word.len() > 19 || (word.len() > 1 && word[0] == b'0') || !word.iter().all(u8::is_ascii_digit) { return None; }
    Some(word.iter().fold(0u64, |n, c| n * 10 + (c - b'0') as u64))
}

/// The end of an option list, the first bad item, and the first that has to be understood and isn't; or None where octets are missing.
fn list(m: &[u8], mut at: usize) -> Option<(usize, bool, Option<u8>)> {
    let (mut bad, mut unknown) = (false, None);
    loop {
        let marker = *m.get(at)?;
        at += 1;
        let mut data = None;
        if marker & 0x20 != 0 {
            let length = u16::from_be_bytes([*m.get(at)?, *m.get(at + 1)?]) as usize;
            at += 2;
            if m.len() < at + length { return None; }
            data = Some(length);
            at += length;
        }
        let kind = marker & 0x1F;
        bad |= kind == 0 || (kind == 1 && data.is_some()) || (kind == 31 && data.map_or(true, |n| n < 3));
        if marker & 0x40 != 0 && kind != 1 && unknown.is_none() { unknown = Some(marker); }
        if marker & 0x80 == 0 { return Some((at, bad, unknown)); }
    }
}

fn judge(m: &[u8], place: Place, phase: Phase, max: u64) -> Verdict {
    if m.len() < 4 { return Verdict::Silent("C1"); }
    if m.len() as u64 > max { return Verdict::Silent("C2"); }
    let (function, flags) = (m[0], m[1]);
    let mut at = 4;
    let mut address = |present: bool| -> Option<Option<[u8; 6]>> {
        if !present { return Some(None); }
        let v = m.get(at..at + 6)?.try_into().ok()?;
        at += 6;
        Some(Some(v))
    };
    let (Some(origin), Some(dest)) = (address(flags & 8 != 0), address(flags & 4 != 0)) else { return Verdict::Silent("C3"); };
    let link = function == 0 || (6..=11).contains(&function);
    let wrong = match place {
        Place::Hub => origin.is_some(),
        Place::Node(own) => (!link && origin.is_none()) || dest.map_or(false, |d| d != BROADCAST && d != own),
        Place::Direct(own, peer) => origin.map_or(false, |o| Some(o) != peer) || dest.map_or(false, |d| d != own),
    };
    if wrong { return Verdict::Silent("C4"); }
    let refuse = |check: &'static str, code: u8, marker: u8| {
        if dest == Some(BROADCAST) || matches!(function, 0 | 3 | 7 | 9 | 11) { return Verdict::Silent(check); }
        let back = if matches!(place, Place::Node(_)) { origin } else { None };
        let mut nak = vec![0, if back.is_some() { 4 } else { 0 }, m[2], m[3]];
        if let Some(v) = back { nak.extend_from_slice(&v); }
        nak.extend_from_slice(&[function, 1, marker, 0, 7, 0, code]);
        Verdict::Nak(check, nak)
    };
    if flags > 15 { return refuse("C5", 145, 0); }
    if matches!(place, Place::Hub) && dest.is_some() {
        return if phase == Phase::Connected { Verdict::Carry } else { Verdict::Silent("C13") };
    }
    if function > 12 { return refuse("C6", 143, 0); }
    let (mut bad, mut unknown) = (false, None);
    if flags & 2 != 0 {
        let Some(found) = list(m, at) else { return refuse("C7", 147, 0); };
        at = found.0;
        bad |= found.1;
        unknown = found.2;
    }
    if flags & 1 != 0 {
        let Some(found) = list(m, at) else { return refuse("C7", 147, 0); };
        at = found.0;
        bad |= found.1;
    }
    if bad { return refuse("C7b", 145, 0); }
    if flags & 1 != 0 && !matches!(function, 1 | 12) { return refuse("C8", 145, 0); }
    if let Some(marker) = unknown { return refuse("C9", 146, marker); }
    let p = &m[at..];
    if matches!(function, 1 | 4 | 6 | 7 | 12) && p.is_empty() { return refuse("C10", 149, 0); }
    let result = if function == 0 { p.get(1).copied().unwrap_or(0) } else { 0 };
    let fixed = match function { 0 => if result == 1 { 7 } else { 2 }, 1 => 1, 4 => 6, 6 | 7 => 26, 12 => 3, _ => 0 };
    if p.len() < fixed { return refuse("C10b", 147, 0); }
    if p.len() > fixed && !(matches!(function, 1 | 3 | 12) || (function == 0 && result != 0)) { return refuse("C10c", 150, 0); }
    let range = match function {
        0 => result > 1 || (result == 1 && std::str::from_utf8(&p[7..]).is_err()),
        3 => std::str::from_utf8(p).is_err(),
        4 => p[0] > 2 || p[1] > 1,
        6 | 7 => p[..6] == [0; 6] || p[..6] == BROADCAST,
        _ => false,
    };
    if range { return refuse("C11", 80, 0); }
    if function == 12 { return refuse("C12", 144, 0); }
    let in_place = match (phase, place) {
        (Phase::Request, _) => function == 6,
        (Phase::Accept, _) => matches!(function, 0 | 7),
        (Phase::Disconnecting, _) => matches!(function, 0 | 9),
        (_, Place::Hub) => matches!(function, 8 | 10),
        (_, Place::Node(_)) => function <= 5 || (matches!(function, 8 | 10 | 11) && origin.is_none()),
        (_, Place::Direct(..)) => function <= 5 || matches!(function, 8 | 10 | 11),
    };
    if in_place { Verdict::Pass } else { Verdict::Silent("C13") }
}

fn answer(line: &[u8], message: &mut Vec<u8>, out: &mut impl Write) -> Option<()> {
    let mut words = line.split(|&c| c == b' ').filter(|w| !w.is_empty());
    let Some(first) = words.next() else { return Some(()); };
    if first[0] == b'#' { return Some(()); }
    let place = place(first)?;
    let phase = match words.next()? {
        b"request" => Phase::Request, b"accept" => Phase::Accept, b"connected" => Phase::Connected, b"disconnecting" => Phase::Disconnecting,
        _ => return None,
    };
    let max = number(words.next()?).filter(|&n| n <= 65535)?;
    message.clear();
    let mut high = None;
    for word in words { octets(word, &mut high, message)?; }
    if high.is_some() { return None; }
    match judge(message, place, phase, max) {
        Verdict::Pass => out.write_all(b"pass\n"),
        Verdict::Carry => out.write_all(b"carry\n"),
        Verdict::Silent(check) => writeln!(out, "silent {check}"),
        Verdict::Nak(check, nak) => {
            let mut text = format!("nak {check} ");
            for o in nak { text.push_str(&format!("{o:02X}")); }
            text.push('\n');
            out.write_all(text.as_bytes())
        }
    }.ok()
}

fn main() {
    let mut input = BufReader::with_capacity(65536, std::io::stdin().lock());
    let mut out = BufWriter::with_capacity(65536, std::io::stdout().lock());
    let (mut line, mut message, mut n) = (Vec::new(), Vec::new(), 0u64);
    loop {
        line.clear();
        if input.read_until(b'\n', &mut line).unwrap_or(0) == 0 { break; }
        n += 1;
        if line.last() == Some(&b'\n') { line.pop(); if line.last() == Some(&b'\r') { line.pop(); } }
        if line.len() > 140_000 || answer(&line, &mut message, &mut out).is_none() {
            let _ = writeln!(out, "fault script line {n}");
            let _ = out.flush();
            std::process::exit(2);
        }
    }
    let _ = out.flush();
}
