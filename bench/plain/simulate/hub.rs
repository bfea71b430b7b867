//! A hub: rows, outboxes, and the live connections by address and by device.

use crate::messages::{BROADCAST, Device, Identity, Vmac, forwarded};
use std::collections::{HashMap, VecDeque};

pub const ROWS: usize = 256;
pub const OUTBOX: usize = 64;

#[derive(Clone, Copy, PartialEq)]
pub enum End {
    Replaced,
    Full,
}

pub struct Row {
    pub who: Identity,
    pub end: Option<End>,
    pub outbox: VecDeque<(Vec<u8>, u64)>,
}

#[derive(Default)]
pub struct Counts {
    pub joined: u64,
    pub replaced: u64,
    pub refused: u64,
    pub unicasts: u64,
    pub broadcasts: u64,
    pub appended: u64,
    pub dropped: u64,
    pub full: u64,
    pub missed: u64,
}

pub enum Refusal {
    Duplicate,
    TableFull,
}

/// Rows by the numbers of their connections, those that haven't left, and the live ones by address and by device.
pub struct Hub {
    pub own: Identity,
    pub rows: Vec<Option<Row>>,
    pub there: Vec<usize>,
    pub by_address: HashMap<Vmac, usize>,
    pub by_device: HashMap<Device, usize>,
    pub counts: Counts,
}

impl Hub {
    pub fn end(&mut self, conn: usize, end: Option<End>) {
        if let Some(row) = &mut self.rows[conn] {
            if row.end.is_none() {
                self.by_address.remove(&row.who.vmac);
                self.by_device.remove(&row.who.device);
            }
            row.end = row.end.or(end);
        }
    }

    pub fn connect(&mut self, who: Identity) -> Result<usize, Refusal> {
        let holder = self.by_address.get(&who.vmac).copied();
        let held = holder.and_then(|conn| self.rows[conn].as_ref());
        if who.vmac == self.own.vmac || held.is_some_and(|row| row.who.device != who.device) {
            self.counts.refused += 1;
            return Err(Refusal::Duplicate);
        }
        if self.there.len() >= ROWS {
            self.counts.refused += 1;
            return Err(Refusal::TableFull);
        }
        if let Some(&old) = self.by_device.get(&who.device) {
            self.end(old, Some(End::Replaced));
            self.counts.replaced += 1;
        }
        let conn = self.rows.len();
        self.rows.push(Some(Row { who, end: None, outbox: VecDeque::new() }));
        self.there.push(conn);
        self.by_address.insert(who.vmac, conn);
        self.by_device.insert(who.device, conn);
        self.counts.joined += 1;
        Ok(conn)
    }

    pub fn leave(&mut self, conn: usize) {
        self.end(conn, None);
        self.rows[conn] = None;
        self.there.retain(|&it| it != conn);
    }

    pub fn forward(&mut self, conn: usize, m: &[u8], place: u64) {
        let from = match &self.rows[conn] {
            Some(row) if row.end.is_none() => row.who.vmac,
            _ => return,
        };
        let frame = forwarded(m, from);
        if m[4..10] == BROADCAST {
            self.counts.broadcasts += 1;
            for &to in &self.there {
                let Some(row) = &mut self.rows[to] else { continue };
                if to == conn || row.end.is_some() {
                    continue;
                }
                if frame.len() > row.who.max_bvlc.into() {
                    self.counts.dropped += 1;
                } else if row.outbox.len() >= OUTBOX {
                    self.counts.missed += 1;
                } else {
                    row.outbox.push_back((frame.clone(), place));
                    self.counts.appended += 1;
                }
            }
            return;
        }
        self.counts.unicasts += 1;
        let Some(&to) = self.by_address.get(&m[4..10]) else {
            self.counts.dropped += 1;
            return;
        };
        let Some(row) = &mut self.rows[to] else { return };
        if frame.len() > row.who.max_bvlc.into() {
            self.counts.dropped += 1;
        } else if row.outbox.len() >= OUTBOX {
            self.counts.full += 1;
            self.end(to, Some(End::Full));
        } else {
            row.outbox.push_back((frame, place));
            self.counts.appended += 1;
        }
    }
}
