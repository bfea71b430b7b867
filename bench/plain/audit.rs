// The audit of journals by an ordinary program without proofs: the same lines, limits and answers as `bsc audit`.
use std::collections::{BTreeMap, HashMap};
use std::io::{Read, Write};

const MOST_OCTETS: usize = 1 << 28;
const MOST_IN_LINE: usize = 300_000;

#[derive(Clone, Copy, PartialEq)]
enum End { Left, Replaced, Full, Stopped }

#[derive(PartialEq)]
enum Reply {
    Joined(u64, Option<u64>), Duplicate(Option<u64>), TableFull(u64), Sent(u64), Full(u64), Long(u64), NoHolder,
    SentAll(Vec<u64>, Vec<u64>, Vec<u64>), NotCurrent(End), Stopped, Gone(End, u64), Counts([u64; 9]),
}

enum Call { Connect([u8; 26]), Forward(u64, Vec<u8>, Vec<(u64, u64)>), Leave(u64, u64), Stop, Count }

struct Entry { place: u64, caller: u64, call: Call, reply: Reply }

struct Hub { vmac: [u8; 6], rows: u64, outbox: u64, calls: u64 }

enum Said { Hub(Hub), Entry(Entry), Denial }

enum Verdict { Legal(u64), Bad(usize), Hubs(usize), Twice(u64), Missing(u64), Illegal(u64) }

// ---- lines

fn number(word: &[u8]) -> Option<u64> {
    if word.is_empty() || word.len() > 19 || (word.len() > 1 && word[0] == b'0') || !word.iter().all(u8::is_ascii_digit) { return None; }
    Some(word.iter().fold(0, |n, c| n * 10 + u64::from(c - b'0')))
}

fn octets(word: &[u8], is_capital: bool) -> Option<Vec<u8>> {
    if word.len() % 2 != 0 { return None; }
    let digit = |c: u8| match c {
        b'0'..=b'9' => Some(c - b'0'),
        b'A'..=b'F' => Some(c - b'A' + 10),
        b'a'..=b'f' if !is_capital => Some(c - b'a' + 10),
        _ => None,
    };
    word.chunks(2).map(|pair| Some(digit(pair[0])? * 16 + digit(pair[1])?)).collect()
}

fn hub(line: &[u8]) -> Option<Hub> {
    let words: Vec<&[u8]> = line.split(|&c| c == b' ').filter(|word| !word.is_empty()).collect();
    if words.len() != 8 || words[0] != b"hub" { return None; }
    let vmac: [u8; 6] = octets(words[1], false)?.try_into().ok()?;
    let device: Vec<u8> = words[2].iter().copied().filter(|&c| c != b'-').collect();
    let (most, npdu) = (octets(words[3], false)?, octets(words[4], false)?);
    if octets(&device, false)?.len() != 16 || most.len() != 2 || npdu.len() != 2 { return None; }
    let (most, npdu) = (u64::from(most[0]) * 256 + u64::from(most[1]), npdu[0] > 0 || npdu[1] > 0);
    let (rows, outbox, calls) = (number(words[5])?, number(words[6])?, number(words[7])?);
    let is_fit = vmac != [0; 6] && vmac != [255; 6] && most >= 64 && npdu && (1..=1024).contains(&rows)
        && (2..=1024).contains(&outbox) && (1..=1 << 52).contains(&calls) && rows * outbox * most <= 1 << 30;
    is_fit.then_some(Hub { vmac, rows, outbox, calls })
}

fn end(word: &[u8]) -> Option<End> {
    match word { b"left" => Some(End::Left), b"replaced" => Some(End::Replaced), b"full" => Some(End::Full), b"stopped" => Some(End::Stopped), _ => None }
}

fn numbers(word: &[u8]) -> Option<Vec<u64>> {
    if word == b"-" { return Some(Vec::new()); }
    word.split(|&c| c == b',').map(number).collect()
}

fn looks(word: &[u8]) -> Option<Vec<(u64, u64)>> {
    if word == b"-" { return Some(Vec::new()); }
    word.split(|&c| c == b',').map(|look| {
        let at = look.iter().position(|&c| c == b':')?;
        Some((number(&look[..at])?, number(&look[at + 1..])?))
    }).collect()
}

fn reply(words: &[&[u8]]) -> Option<Reply> {
    Some(match *words {
        [b"joined", conn] => Reply::Joined(number(conn)?, None),
        [b"joined", conn, b"replacing", old] => Reply::Joined(number(conn)?, Some(number(old)?)),
        [b"duplicate", b"hub"] => Reply::Duplicate(None),
        [b"duplicate", conn] => Reply::Duplicate(Some(number(conn)?)),
        [b"tablefull", rows] => Reply::TableFull(number(rows)?),
        [b"sent", conn] => Reply::Sent(number(conn)?),
        [b"full", conn] => Reply::Full(number(conn)?),
        [b"long", conn] => Reply::Long(number(conn)?),
        [b"noholder"] => Reply::NoHolder,
        [b"sentall", to, missed, skipped] => Reply::SentAll(
            numbers(to.strip_prefix(b"to=")?)?, numbers(missed.strip_prefix(b"missed=")?)?, numbers(skipped.strip_prefix(b"skipped=")?)?),
        [b"notcurrent", how] => Reply::NotCurrent(end(how)?),
        [b"stopped"] => Reply::Stopped,
        [b"gone", how, taken] => Reply::Gone(end(how)?, number(taken)?),
        [b"counts", ref rest @ ..] if rest.len() == 9 => {
            let names: [&[u8]; 9] = [b"joined=", b"replaced=", b"refused=", b"unicasts=", b"broadcasts=", b"appended=", b"dropped=", b"full=", b"missed="];
            let mut counts = [0; 9];
            for (at, word) in rest.iter().enumerate() { counts[at] = number(word.strip_prefix(names[at])?)?; }
            Reply::Counts(counts)
        }
        _ => return None,
    })
}

fn entry(line: &[u8]) -> Option<Entry> {
    let words: Vec<&[u8]> = line.split(|&c| c == b' ').collect();
    let [place, caller, name, rest @ ..] = words.as_slice() else { return None };
    let (call, rest) = match (*name, rest) {
        (b"connect", [who, rest @ ..]) => (Call::Connect(octets(who, true)?.try_into().ok()?), rest),
        (b"forward", [conn, frame, b"looks", list, rest @ ..]) if !frame.is_empty() =>
            (Call::Forward(number(conn)?, octets(frame, true)?, looks(list)?), rest),
        (b"leave", [conn, taken, empties, rest @ ..]) => {
            number(empties)?;
            (Call::Leave(number(conn)?, number(taken)?), rest)
        }
        (b"stop", rest) => (Call::Stop, rest),
        (b"count", rest) => (Call::Count, rest),
        _ => return None,
    };
    Some(Entry { place: number(place)?, caller: number(caller)?, call, reply: reply(rest)? })
}

fn said(line: &[u8]) -> Option<Said> {
    if line.starts_with(b"deny") { return Some(Said::Denial); }
    if let Some(hub) = hub(line) { return Some(Said::Hub(hub)); }
    entry(line).map(Said::Entry)
}

// ---- the history

struct Row { caller: u64, vmac: [u8; 6], device: [u8; 16], longest: usize, ended: Option<End>, entered: u64, looked: u64 }

struct History {
    hub: Hub, entries: u64, stopped: bool, counts: [u64; 9],
    rows: BTreeMap<u64, Row>, holders: HashMap<[u8; 6], u64>, devices: HashMap<[u8; 16], u64>,
}

impl History {
    /// A connection is live no more.
    fn close(&mut self, conn: u64, how: End) {
        if let Some(row) = self.rows.get_mut(&conn) {
            if row.ended.is_none() {
                row.ended = Some(how);
                self.holders.remove(&row.vmac);
                self.devices.remove(&row.device);
            }
        }
    }

    /// A look, which finds so many taken: no fewer than the one before, and no more than entered.
    fn look(&mut self, conn: u64, taken: u64) -> Option<u64> {
        let row = self.rows.get_mut(&conn)?;
        if taken < row.looked || row.entered < taken { return None; }
        row.looked = taken;
        Some(row.entered - taken)
    }

    fn connect(&mut self, caller: u64, who: &[u8; 26]) -> Option<Reply> {
        let (vmac, device): ([u8; 6], [u8; 16]) = (who[..6].try_into().unwrap(), who[6..22].try_into().unwrap());
        if vmac == [0; 6] || vmac == [255; 6] || self.entries >= self.hub.calls { return None; }
        let refused = if self.stopped {
            Some(Reply::Stopped)
        } else if vmac == self.hub.vmac {
            Some(Reply::Duplicate(None))
        } else if let Some(&holder) = self.holders.get(&vmac).filter(|conn| self.rows[conn].device != device) {
            Some(Reply::Duplicate(Some(holder)))
        } else if self.rows.len() as u64 >= self.hub.rows {
            Some(Reply::TableFull(self.hub.rows))
        } else {
            None
        };
        if let Some(refused) = refused {
            self.counts[2] += 1;
            return Some(refused);
        }
        let replaced = self.devices.get(&device).copied();
        if let Some(old) = replaced {
            self.close(old, End::Replaced);
            self.counts[1] += 1;
        }
        self.counts[0] += 1;
        let conn = self.counts[0];
        let longest = usize::from(who[22]) * 256 + usize::from(who[23]);
        self.rows.insert(conn, Row { caller, vmac, device, longest, ended: None, entered: 0, looked: 0 });
        self.holders.insert(vmac, conn);
        self.devices.insert(device, conn);
        Some(Reply::Joined(conn, replaced))
    }

    fn unicast(&mut self, frame: &[u8], looks: &[(u64, u64)]) -> Option<Reply> {
        let holder = self.holders.get(&frame[4..10]).copied();
        let Some(conn) = holder else { return looks.is_empty().then_some(Reply::NoHolder) };
        if self.rows[&conn].longest < frame.len() { return looks.is_empty().then_some(Reply::Long(conn)); }
        let &[(at, taken)] = looks else { return None };
        if at != conn { return None; }
        if self.look(conn, taken)? == self.hub.outbox {
            self.close(conn, End::Full);
            self.counts[7] += 1;
            return Some(Reply::Full(conn));
        }
        self.rows.get_mut(&conn)?.entered += 1;
        Some(Reply::Sent(conn))
    }

    fn broadcast(&mut self, sender: u64, frame: &[u8], looks: &[(u64, u64)]) -> Option<Reply> {
        let (mut to, mut missed, mut skipped) = (Vec::new(), Vec::new(), Vec::new());
        let mut looks = looks.iter();
        for (&conn, row) in &mut self.rows {
            if conn == sender || row.ended.is_some() { continue; }
            if row.longest < frame.len() + 6 {
                skipped.push(conn);
                continue;
            }
            let &(at, taken) = looks.next()?;
            if at != conn || taken < row.looked || row.entered < taken { return None; }
            row.looked = taken;
            if row.entered - taken == self.hub.outbox {
                missed.push(conn);
            } else {
                row.entered += 1;
                to.push(conn);
            }
        }
        looks.next().is_none().then_some(Reply::SentAll(to, missed, skipped))
    }

    fn forward(&mut self, caller: u64, sender: u64, frame: &[u8], looks: &[(u64, u64)]) -> Option<Reply> {
        let row = self.rows.get(&sender).filter(|row| row.caller == caller)?;
        if frame.len() < 10 || frame[1] & 4 == 0 || frame[1] & 8 != 0 || self.entries >= self.hub.calls { return None; }
        let is_broadcast = frame[4..10] == [255; 6];
        let reply = if self.stopped {
            looks.is_empty().then_some(Reply::Stopped)
        } else if let Some(how) = row.ended {
            looks.is_empty().then_some(Reply::NotCurrent(how))
        } else if is_broadcast {
            self.broadcast(sender, frame, looks)
        } else {
            self.unicast(frame, looks)
        }?;
        self.counts[if is_broadcast { 4 } else { 3 }] += 1;
        let (appended, missed) = match &reply {
            Reply::Sent(_) => (1, 0),
            Reply::SentAll(to, missed, _) => (to.len() as u64, missed.len() as u64),
            _ => (0, 0),
        };
        self.counts[5] += appended;
        self.counts[6] += u64::from(appended == 0);
        self.counts[8] += missed;
        Some(reply)
    }

    fn leave(&mut self, caller: u64, conn: u64, taken: u64) -> Option<Reply> {
        self.rows.get(&conn).filter(|row| row.caller == caller)?;
        self.look(conn, taken)?;
        self.close(conn, End::Left);
        Some(Reply::Gone(self.rows.remove(&conn)?.ended?, taken))
    }

    /// The reply that is due to an entry's call, if its caller may make it and its looks can be.
    fn due(&mut self, entry: &Entry) -> Option<Reply> {
        match &entry.call {
            Call::Connect(who) => self.connect(entry.caller, who),
            Call::Forward(conn, frame, looks) => self.forward(entry.caller, *conn, frame, looks),
            Call::Leave(conn, taken) => self.leave(entry.caller, *conn, *taken),
            Call::Stop if self.stopped => None,
            Call::Stop => {
                let counts = self.counts;
                for conn in self.rows.keys().copied().collect::<Vec<_>>() { self.close(conn, End::Stopped); }
                self.stopped = true;
                Some(Reply::Counts(counts))
            }
            Call::Count => (self.entries < self.hub.calls).then_some(Reply::Counts(self.counts)),
        }
    }
}

// ---- the audit

fn audit(octets: &[u8]) -> Verdict {
    let (mut hubs, mut entries, mut at) = (Vec::new(), Vec::new(), 0);
    for (n, piece) in octets.split_inclusive(|&c| c == b'\n').enumerate() {
        at += piece.len();
        let line = piece.strip_suffix(b"\n").map_or(piece, |line| line.strip_suffix(b"\r").unwrap_or(line));
        if line.len() > MOST_IN_LINE || at > MOST_OCTETS { return Verdict::Bad(n + 1); }
        match said(line) {
            Some(Said::Hub(hub)) => hubs.push(hub),
            Some(Said::Entry(entry)) => entries.push(entry),
            Some(Said::Denial) => {}
            None => return Verdict::Bad(n + 1),
        }
    }
    if hubs.len() != 1 { return Verdict::Hubs(hubs.len()); }
    entries.sort_by_key(|entry| entry.place);
    if let Some(two) = entries.windows(2).find(|two| two[0].place == two[1].place) { return Verdict::Twice(two[0].place); }
    if let Some((n, _)) = entries.iter().enumerate().find(|(n, entry)| entry.place != *n as u64) { return Verdict::Missing(n as u64); }
    let mut history = History {
        hub: hubs.remove(0), entries: 0, stopped: false, counts: [0; 9],
        rows: BTreeMap::new(), holders: HashMap::new(), devices: HashMap::new(),
    };
    for entry in &entries {
        if history.due(entry).as_ref() != Some(&entry.reply) { return Verdict::Illegal(entry.place); }
        history.entries += 1;
    }
    Verdict::Legal(history.entries)
}

fn main() {
    let mut octets = Vec::new();
    std::io::stdin().take(MOST_OCTETS as u64 + 300_003).read_to_end(&mut octets).unwrap();
    let (line, status) = match audit(&octets) {
        Verdict::Legal(n) => (format!("legal {n}"), 0),
        Verdict::Bad(n) => (format!("fault script line {n}"), 2),
        Verdict::Hubs(n) => (format!("hubs {n}"), 10),
        Verdict::Twice(place) => (format!("twice {place}"), 10),
        Verdict::Missing(place) => (format!("missing {place}"), 10),
        Verdict::Illegal(place) => (format!("illegal {place}"), 10),
    };
    std::io::stdout().write_all(format!("{line}\n").as_bytes()).unwrap();
    std::process::exit(status);
}
