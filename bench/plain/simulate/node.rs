//! A node: its sides to two hubs, each with its machine.

use crate::messages::{BROADCAST, Identity, Vmac, bare, named, naming, read_message};

pub const CONNECT_WAIT: u64 = 10_000;
pub const DISCONNECT_WAIT: u64 = 10_000;
pub const HEARTBEAT: u64 = 300_000;
pub const LEAST_WAIT: u64 = 2_000;
pub const GREATEST_WAIT: u64 = 30_000;

pub enum Content {
    Opened,
    Message(Vec<u8>),
    Closed,
}

#[derive(Clone, Copy, PartialEq)]
pub enum Phase {
    Dialled,
    Asked(u16),
    Connected,
    Disconnecting(u16, u64),
}

pub struct Machine {
    pub link: usize,
    pub phase: Phase,
    /// Who accepted.
    pub peer: Option<Identity>,
    pub since: u64,
    pub last: u64,
    pub has_asked: bool,
}

#[derive(Clone, Copy, PartialEq)]
pub enum Standing {
    Idle,
    UnderWay,
    Up,
    Waiting(u64),
}

/// A hub as a node has it: how it stands, how often it failed, and the link to it.
pub struct Side {
    pub standing: Standing,
    pub failures: u32,
    pub machine: Option<Machine>,
}

pub enum Action {
    Dial(usize),
    Put(usize, Content),
    Deliver(Vmac, bool, Vec<u8>),
}

pub struct Node {
    pub own: Identity,
    pub has_failover: bool,
    pub has_started: bool,
    pub sides: [Side; 2],
    pub next_id: u16,
}

impl Node {
    pub fn next(&mut self) -> u16 {
        self.next_id = self.next_id.wrapping_add(1);
        self.next_id
    }

    /// Dials a hub. The link of a failover that was dropped is closed first, where it is still there.
    pub fn dial(&mut self, side: usize, done: &mut Vec<Action>) {
        if let Some(dropped) = self.sides[side].machine.take() {
            done.push(Action::Put(dropped.link, Content::Closed));
        }
        self.sides[side].standing = Standing::UnderWay;
        done.push(Action::Dial(side));
    }

    /// The link to a hub is over. One that was dropped has not failed.
    pub fn is_over(&mut self, side: usize, now: u64, done: &mut Vec<Action>) {
        let it = &mut self.sides[side];
        it.machine = None;
        if it.standing != Standing::UnderWay && it.standing != Standing::Up {
            return;
        }
        it.failures += 1;
        let wait = (LEAST_WAIT << (it.failures - 1).min(16)).min(GREATEST_WAIT);
        it.standing = Standing::Waiting(now + wait);
        if side == 0 && self.has_failover && self.sides[1].standing == Standing::Idle {
            self.dial(1, done);
        }
    }

    pub fn close(&mut self, side: usize, now: u64, done: &mut Vec<Action>) {
        if let Some(machine) = &self.sides[side].machine {
            done.push(Action::Put(machine.link, Content::Closed));
        }
        self.is_over(side, now, done);
    }

    pub fn accepted(&mut self, side: usize, now: u64, done: &mut Vec<Action>) {
        self.sides[side].standing = Standing::Up;
        self.sides[side].failures = 0;
        if side == 1 {
            return;
        }
        self.sides[1].failures = 0;
        let was = std::mem::replace(&mut self.sides[1].standing, Standing::Idle);
        if was != Standing::UnderWay && was != Standing::Up {
            return;
        }
        let id = self.next();
        match &mut self.sides[1].machine {
            Some(machine) if machine.phase == Phase::Connected => {
                machine.phase = Phase::Disconnecting(id, now);
                done.push(Action::Put(machine.link, Content::Message(bare(8, id))));
            }
            _ => self.close(1, now, done),
        }
    }

    pub fn opened(&mut self, side: usize, done: &mut Vec<Action>) {
        let id = self.next();
        if let Some(machine) = &mut self.sides[side].machine {
            machine.phase = Phase::Asked(id);
            done.push(Action::Put(machine.link, Content::Message(naming(6, id, &self.own))));
        }
    }

    pub fn came(&mut self, side: usize, m: &[u8], now: u64, done: &mut Vec<Action>) {
        let Some(machine) = &mut self.sides[side].machine else { return };
        machine.last = now;
        machine.has_asked = false;
        if m.len() > self.own.max_bvlc.into() {
            return;
        }
        let Some(message) = read_message(m) else { return };
        match (machine.phase, message.function) {
            (Phase::Asked(id), 7) if message.id == id => {
                machine.phase = Phase::Connected;
                machine.peer = Some(named(message.payload));
                self.accepted(side, now, done);
            }
            (Phase::Asked(id), 0) if message.id == id => self.close(side, now, done),
            (Phase::Connected, 1) => {
                let Some(from) = message.from else { return };
                if message.to.is_none_or(|to| to == BROADCAST) && message.payload.len() <= self.own.max_npdu.into() {
                    done.push(Action::Deliver(from, message.to.is_some(), message.payload.to_vec()));
                }
            }
            (Phase::Connected, 8) => {
                done.push(Action::Put(machine.link, Content::Message(bare(9, message.id))));
                self.close(side, now, done);
            }
            (Phase::Connected, 10) => done.push(Action::Put(machine.link, Content::Message(bare(11, message.id)))),
            (Phase::Disconnecting(id, _), 9) if message.id == id => self.close(side, now, done),
            _ => {}
        }
    }

    pub fn tick(&mut self, now: u64, done: &mut Vec<Action>) {
        for side in 0..2 {
            let id = self.next_id.wrapping_add(1);
            let Some(machine) = &mut self.sides[side].machine else { continue };
            match machine.phase {
                Phase::Dialled | Phase::Asked(_) if now - machine.since >= CONNECT_WAIT => self.close(side, now, done),
                Phase::Connected if now - machine.last >= 2 * HEARTBEAT => self.close(side, now, done),
                Phase::Connected if now - machine.last >= HEARTBEAT && !machine.has_asked => {
                    machine.has_asked = true;
                    self.next_id = id;
                    done.push(Action::Put(machine.link, Content::Message(bare(10, id))));
                }
                Phase::Disconnecting(_, since) if now - since >= DISCONNECT_WAIT => self.close(side, now, done),
                _ => {}
            }
        }
        for side in 0..2 {
            if matches!(self.sides[side].standing, Standing::Waiting(until) if until <= now)
                && (side == 0 || self.sides[0].standing != Standing::Up)
            {
                self.dial(side, done);
            }
        }
    }

    /// Sends by the hub in use, unless the NPDU or the message is longer than it takes.
    pub fn send(&mut self, to: Vmac, npdu: &[u8], done: &mut Vec<Action>) {
        let used = self.sides.iter().find(|side| side.standing == Standing::Up);
        let Some(Machine { link, peer: Some(hub), .. }) = used.and_then(|side| side.machine.as_ref()) else { return };
        let (link, length) = (*link, 10 + npdu.len());
        if npdu.len() > hub.max_npdu.into() || length > hub.max_bvlc.into() {
            return;
        }
        let [high, low] = self.next().to_be_bytes();
        let mut m = Vec::with_capacity(length);
        m.extend_from_slice(&[1, 4, high, low]);
        m.extend_from_slice(&to);
        m.extend_from_slice(npdu);
        done.push(Action::Put(link, Content::Message(m)));
    }
}
