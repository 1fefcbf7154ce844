//! A byte string as pieces of another, of bytes and of runs of one byte.

use std::collections::HashMap;

/// What a piece of the other, or a run, has to have to be worth its place.
const SHORTEST: usize = 14;
/// Places of the other are found by so many bytes.
const KEY: usize = 8;

/// Writes the pieces that `bytes` are made of.
pub fn write(base: &[u8], bytes: &[u8], out: &mut Vec<u8>) {
    let mut places: HashMap<&[u8], Vec<usize>> = HashMap::new();
    for (at, key) in base.windows(KEY).enumerate() {
        places.entry(key).or_default().push(at);
    }
    let mut plain = 0;
    let mut at = 0;
    while at < bytes.len() {
        let run = bytes[at..].iter().take_while(|byte| **byte == bytes[at]).count();
        let found = longest(base, &places, &bytes[at..]);
        let length = run.max(found.1);
        if length < SHORTEST {
            at += 1;
            continue;
        }
        put_bytes(&bytes[plain..at], out);
        if found.1 >= run {
            out.push(b'C');
            put_number(found.0, out);
            put_number(found.1, out);
        } else {
            out.push(b'R');
            put_number(run, out);
            out.push(bytes[at]);
        }
        at += length;
        plain = at;
    }
    put_bytes(&bytes[plain..], out);
}

fn put_number(number: usize, out: &mut Vec<u8>) {
    out.extend_from_slice(&(number as u32).to_le_bytes());
}

fn put_bytes(bytes: &[u8], out: &mut Vec<u8>) {
    if !bytes.is_empty() {
        out.push(b'B');
        put_number(bytes.len(), out);
        out.extend_from_slice(bytes);
    }
}

/// The place and length of the longest piece of `base` that `bytes` begin with.
fn longest(base: &[u8], places: &HashMap<&[u8], Vec<usize>>, bytes: &[u8]) -> (usize, usize) {
    let candidates = bytes.get(..KEY).and_then(|key| places.get(key)).map_or(&[][..], Vec::as_slice);
    let shared = |at: usize| base[at..].iter().zip(bytes).take_while(|(a, b)| a == b).count();
    candidates.iter().map(|at| (*at, shared(*at))).max_by_key(|found| found.1).unwrap_or((0, 0))
}
