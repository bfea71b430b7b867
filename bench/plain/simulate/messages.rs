//! Messages, none of which has header options.

pub type Vmac = [u8; 6];
pub type Device = [u8; 16];

pub const BROADCAST: Vmac = [255; 6];

#[derive(Clone, Copy)]
pub struct Identity {
    pub vmac: Vmac,
    pub device: Device,
    pub max_bvlc: u16,
    pub max_npdu: u16,
}

pub struct Message<'a> {
    pub function: u8,
    pub id: u16,
    pub from: Option<Vmac>,
    pub to: Option<Vmac>,
    pub payload: &'a [u8],
}

pub fn read_address(m: &[u8], at: &mut usize) -> Option<Vmac> {
    let vmac = m.get(*at..*at + 6)?.try_into().ok()?;
    *at += 6;
    Some(vmac)
}

pub fn read_message(m: &[u8]) -> Option<Message<'_>> {
    let [function, flags, high, low] = *m.get(..4)? else {
        return None;
    };
    if flags & !12 != 0 {
        return None;
    }
    let mut at = 4;
    let from = if flags & 8 != 0 { Some(read_address(m, &mut at)?) } else { None };
    let to = if flags & 4 != 0 { Some(read_address(m, &mut at)?) } else { None };
    let payload = &m[at..];
    let is_well = match function {
        0 => payload.len() >= 2,
        1 => !payload.is_empty(),
        6 | 7 => payload.len() == 26,
        8..=11 => payload.is_empty(),
        _ => false,
    };
    let id = u16::from_be_bytes([high, low]);
    is_well.then_some(Message { function, id, from, to, payload })
}

pub fn bare(function: u8, id: u16) -> Vec<u8> {
    let [high, low] = id.to_be_bytes();
    vec![function, 0, high, low]
}

/// A Connect-Request (6) or a Connect-Accept (7).
pub fn naming(function: u8, id: u16, who: &Identity) -> Vec<u8> {
    let mut m = bare(function, id);
    m.reserve(26);
    m.extend_from_slice(&who.vmac);
    m.extend_from_slice(&who.device);
    m.extend_from_slice(&who.max_bvlc.to_be_bytes());
    m.extend_from_slice(&who.max_npdu.to_be_bytes());
    m
}

pub fn named(payload: &[u8]) -> Identity {
    Identity {
        vmac: payload[..6].try_into().unwrap(),
        device: payload[6..22].try_into().unwrap(),
        max_bvlc: u16::from_be_bytes([payload[22], payload[23]]),
        max_npdu: u16::from_be_bytes([payload[24], payload[25]]),
    }
}

/// The message as it is passed on from `from`.
pub fn forwarded(m: &[u8], from: Vmac) -> Vec<u8> {
    let all = m[4..10] == BROADCAST;
    let flags = if all { m[1] | 8 } else { (m[1] | 8) & 251 };
    let mut out = Vec::with_capacity(m.len() + 6);
    out.extend_from_slice(&[m[0], flags, m[2], m[3]]);
    out.extend_from_slice(&from);
    if all {
        out.extend_from_slice(&BROADCAST);
    }
    out.extend_from_slice(&m[10..]);
    out
}
