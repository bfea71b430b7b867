//! A plain network of hubs and nodes in memory, to be measured beside `bsc simulate`: std's maps and queues, nothing proved.
//!
//! It reads a script from standard input, and writes its text. Of the lines it has those that `bench/long-steps` writes: it
//! has no direct connections, no questions for addresses and no stop, and refuses such a line with status 2, as any that it
//! doesn't know. Built by `rustc -O bench/plain/simulate/main.rs`; see `bench/measure-simulate`.

mod hub;
mod messages;
mod node;
mod words;

use crate::hub::{Counts, End, Hub, Refusal};
use crate::messages::{Identity, Vmac, bare, naming, named, read_message};
use crate::node::{Action, Content, Machine, Node, Phase, Side, Standing};
use crate::words::{all_hex, hex, number, put_hex};
use std::collections::{HashMap, VecDeque};
use std::io::{Read, Write};

const LINKS: usize = 4096;

struct Parcel {
    content: Content,
    sent_at: u64,
}

enum Accepting {
    Request,
    Connected(usize),
    Disconnecting(usize),
    Over,
}

struct Link {
    from: usize,
    hub: usize,
    up: VecDeque<Parcel>,
    down: VecDeque<Parcel>,
    side: Accepting,
    is_lost: bool,
}

#[derive(Default)]
struct Network {
    clock: u64,
    steps: u64,
    hubs: Vec<Hub>,
    nodes: Vec<Node>,
    links: Vec<Link>,
    text: Vec<u8>,
}

impl Network {
    fn put_down(&mut self, l: usize, content: Content) {
        let sent_at = self.steps;
        self.links[l].down.push_back(Parcel { content, sent_at });
    }

    fn leave(&mut self, l: usize) {
        let link = &mut self.links[l];
        let was = std::mem::replace(&mut link.side, Accepting::Over);
        if let Accepting::Connected(conn) | Accepting::Disconnecting(conn) = was {
            self.hubs[link.hub].leave(conn);
        }
    }

    fn close_down(&mut self, l: usize) {
        self.put_down(l, Content::Closed);
        self.leave(l);
    }

    fn reach_hub(&mut self, l: usize, parcel: Parcel) {
        let m = match parcel.content {
            Content::Message(m) => m,
            _ => return self.leave(l),
        };
        let link = &mut self.links[l];
        let hub = &mut self.hubs[link.hub];
        if m.len() > hub.own.max_bvlc.into() {
            return;
        }
        let Some(message) = read_message(&m) else { return };
        match (&link.side, message.function) {
            (Accepting::Request, 6) => match hub.connect(named(message.payload)) {
                Ok(conn) => {
                    link.side = Accepting::Connected(conn);
                    let accept = naming(7, message.id, &hub.own);
                    self.put_down(l, Content::Message(accept));
                }
                Err(refusal) => {
                    if let Refusal::Duplicate = refusal {
                        let mut nak = bare(0, message.id);
                        nak.extend_from_slice(&[6, 1, 0, 0, 7, 0, 151]);
                        self.put_down(l, Content::Message(nak));
                    }
                    self.close_down(l);
                }
            },
            (Accepting::Connected(conn), 1) if message.to.is_some() && message.from.is_none() => {
                hub.forward(*conn, &m, parcel.sent_at);
            }
            (Accepting::Connected(_), 8) => {
                let ack = bare(9, message.id);
                self.put_down(l, Content::Message(ack));
                self.close_down(l);
            }
            (Accepting::Connected(_), 10) => {
                let ack = bare(11, message.id);
                self.put_down(l, Content::Message(ack));
            }
            (Accepting::Disconnecting(_), 9) if message.id == 1 => self.close_down(l),
            _ => {}
        }
    }

    /// The node at the lower end of a link, and which of its hubs that leads to, where it still has that end.
    fn end_of(&self, l: usize) -> Option<(usize, usize)> {
        let k = self.links[l].from;
        let side = self.nodes[k].sides.iter().position(|side| side.machine.as_ref().is_some_and(|it| it.link == l))?;
        Some((k, side))
    }

    fn carry_out(&mut self, k: usize, sent_at: u64, done: Vec<Action>) {
        for action in done {
            match action {
                Action::Dial(side) => self.dial(k, side),
                Action::Put(l, content) => {
                    let sent_at = self.steps;
                    self.links[l].up.push_back(Parcel { content, sent_at });
                }
                Action::Deliver(from, all, octets) => {
                    let cast = if all { "broadcast" } else { "unicast" };
                    write!(self.text, "{k} got {sent_at} ").unwrap();
                    put_hex(&mut self.text, &from);
                    write!(self.text, " {cast} ").unwrap();
                    put_hex(&mut self.text, &octets);
                    self.text.push(b'\n');
                }
            }
        }
    }

    fn dial(&mut self, k: usize, side: usize) {
        let l = self.links.len();
        if l >= LINKS || side >= self.hubs.len() {
            let mut done = Vec::new();
            self.nodes[k].is_over(side, self.clock, &mut done);
            return self.carry_out(k, 0, done);
        }
        let opened = Parcel { content: Content::Opened, sent_at: self.steps };
        self.links.push(Link {
            from: k,
            hub: side,
            up: VecDeque::new(),
            down: VecDeque::from([opened]),
            side: Accepting::Request,
            is_lost: false,
        });
        let machine =
            Machine { link: l, phase: Phase::Dialled, peer: None, since: self.clock, last: self.clock, has_asked: false };
        self.nodes[k].sides[side].machine = Some(machine);
        writeln!(self.text, "link {l} {k} hub {side}").unwrap();
    }

    fn link(&mut self, word: &[u8]) -> Option<usize> {
        let l = number(word)?;
        self.links.get(l).filter(|link| !link.is_lost).map(|_| l)
    }

    fn started(&self, word: &[u8]) -> Option<usize> {
        let k = number(word)?;
        self.nodes.get(k).filter(|node| node.has_started).map(|_| k)
    }

    /// Carries out a line; None where it is refused.
    fn line(&mut self, words: &[&[u8]]) -> Option<()> {
        let mut done = Vec::new();
        match *words {
            [] => return Some(()),
            [word, ..] if word.starts_with(b"#") => return Some(()),
            [b"hub", vmac, device, max_bvlc, max_npdu] if self.steps == 0 && self.hubs.len() < 2 => {
                let (max_bvlc, max_npdu) = (u16::from_be_bytes(hex(max_bvlc)?), u16::from_be_bytes(hex(max_npdu)?));
                let own = Identity { vmac: hex(vmac)?, device: hex(device)?, max_bvlc, max_npdu };
                self.hubs.push(Hub {
                    own,
                    rows: Vec::new(),
                    there: Vec::new(),
                    by_address: HashMap::new(),
                    by_device: HashMap::new(),
                    counts: Counts::default(),
                });
                return Some(());
            }
            [b"node", vmac, device] if self.steps == 0 && !self.hubs.is_empty() && self.nodes.len() < 64 => {
                let own = Identity { vmac: hex(vmac)?, device: hex(device)?, max_bvlc: 1600, max_npdu: 1497 };
                let side = || Side { standing: Standing::Idle, failures: 0, machine: None };
                self.nodes.push(Node {
                    own,
                    has_failover: self.hubs.len() == 2,
                    has_started: false,
                    sides: [side(), side()],
                    next_id: 0,
                });
                return Some(());
            }
            [b"at", ms] => {
                let ms = number(ms)? as u64;
                if ms < self.clock || self.hubs.is_empty() {
                    return None;
                }
                self.clock = ms;
                return Some(());
            }
            [b"start", k] => {
                let k = number(k)?;
                let node = self.nodes.get_mut(k).filter(|node| !node.has_started)?;
                node.has_started = true;
                node.dial(0, &mut done);
                self.carry_out(k, 0, done);
            }
            [b"tick", k] => {
                let k = self.started(k)?;
                self.nodes[k].tick(self.clock, &mut done);
                self.carry_out(k, 0, done);
            }
            [b"send", k, to, ref octets @ ..] => {
                let k = self.started(k)?;
                let npdu = all_hex(octets)?;
                let to: Vmac = hex(to)?;
                if npdu.is_empty() || to == [0; 6] {
                    return None;
                }
                self.nodes[k].send(to, &npdu, &mut done);
                self.carry_out(k, 0, done);
            }
            [b"up", l] => {
                let l = self.link(l)?;
                let parcel = self.links[l].up.pop_front()?;
                if !matches!(self.links[l].side, Accepting::Over) {
                    self.reach_hub(l, parcel);
                }
            }
            [b"down", l] => {
                let l = self.link(l)?;
                let parcel = self.links[l].down.pop_front()?;
                if let Some((k, side)) = self.end_of(l) {
                    let node = &mut self.nodes[k];
                    match &parcel.content {
                        Content::Opened => node.opened(side, &mut done),
                        Content::Message(m) => node.came(side, m, self.clock, &mut done),
                        Content::Closed => node.is_over(side, self.clock, &mut done),
                    }
                    self.carry_out(k, parcel.sent_at, done);
                }
            }
            [b"take", l] => {
                let l = self.link(l)?;
                let link = &mut self.links[l];
                let Accepting::Connected(conn) = link.side else { return None };
                let row = self.hubs[link.hub].rows[conn].as_mut()?;
                if let Some((frame, sent_at)) = row.outbox.pop_front() {
                    link.down.push_back(Parcel { content: Content::Message(frame), sent_at });
                } else if row.end == Some(End::Full) {
                    self.close_down(l);
                } else if row.end == Some(End::Replaced) {
                    link.side = Accepting::Disconnecting(conn);
                    self.put_down(l, Content::Message(bare(8, 1)));
                }
            }
            [b"lose", l] => {
                let l = self.link(l)?;
                self.links[l].is_lost = true;
                self.links[l].up = VecDeque::new();
                self.links[l].down = VecDeque::new();
                if let Some((k, side)) = self.end_of(l) {
                    self.nodes[k].is_over(side, self.clock, &mut done);
                    self.carry_out(k, 0, done);
                }
                self.leave(l);
            }
            _ => return None,
        }
        self.steps += 1;
        Some(())
    }
}

fn main() {
    let mut script = Vec::new();
    std::io::stdin().read_to_end(&mut script).unwrap();
    let mut network = Network::default();
    let mut out = std::io::stdout().lock();
    let mut words = Vec::new();
    let mut refused = None;
    for (at, line) in script.split(|&c| c == b'\n').enumerate() {
        words.clear();
        words.extend(line.split(|&c| c == b' ').filter(|word| !word.is_empty()));
        if network.line(&words).is_none() {
            refused = Some(at + 1);
            break;
        }
        if network.text.len() > 65536 {
            out.write_all(&network.text).unwrap();
            network.text.clear();
        }
    }
    out.write_all(&network.text).unwrap();
    if let Some(at) = refused {
        writeln!(out, "fault script line {at}").unwrap();
        std::process::exit(2);
    }
}
