//! Words: numbers, and octets as hexadecimal digits.

pub fn number(word: &[u8]) -> Option<usize> {
    let is_plain = word == b"0" || !word.starts_with(b"0") && word.len() <= 19 && word.iter().all(u8::is_ascii_digit);
    std::str::from_utf8(word).ok().filter(|_| is_plain)?.parse().ok()
}

pub fn digit(c: u8) -> Option<u8> {
    match c {
        b'0'..=b'9' => Some(c - b'0'),
        b'A'..=b'F' => Some(c - b'A' + 10),
        b'a'..=b'f' => Some(c - b'a' + 10),
        _ => None,
    }
}

pub fn hex<const N: usize>(word: &[u8]) -> Option<[u8; N]> {
    if word.len() != 2 * N {
        return None;
    }
    let mut out = [0; N];
    for (octet, pair) in out.iter_mut().zip(word.chunks(2)) {
        *octet = digit(pair[0])? << 4 | digit(pair[1])?;
    }
    Some(out)
}

pub fn all_hex(words: &[&[u8]]) -> Option<Vec<u8>> {
    let digits: Vec<u8> = words.concat();
    if digits.len() % 2 != 0 {
        return None;
    }
    digits.chunks(2).map(|pair| Some(digit(pair[0])? << 4 | digit(pair[1])?)).collect()
}

pub fn put_hex(text: &mut Vec<u8>, octets: &[u8]) {
    for octet in octets {
        text.push(b"0123456789ABCDEF"[usize::from(octet >> 4)]);
        text.push(b"0123456789ABCDEF"[usize::from(octet & 15)]);
    }
}
