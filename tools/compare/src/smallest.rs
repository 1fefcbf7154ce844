//! The smallest byte string found that still differs.

use generate::shrink::shrink;
use job::{decode, encode, seal};

/// Takes things away one by one as long as `differs` holds: parts of the job where one can be read,
/// stretches of its sections where the trailer cuts some, any stretches else.
pub fn smallest(bytes: &[u8], differs: impl Fn(&[u8]) -> bool) -> Vec<u8> {
    if let Ok(job) = decode(bytes) {
        return encode(&shrink(&job, |job| differs(&encode(job))));
    }
    let Some(mut sections) = cut(bytes) else {
        return without_stretches(bytes.to_vec(), &differs);
    };
    loop {
        let before = sections.clone();
        for at in 0..5 {
            let others = sections.clone();
            sections[at] = without_stretches(sections[at].clone(), &|section: &[u8]| {
                let mut all = others.clone();
                all[at] = section.to_vec();
                differs(&seal(&all))
            });
        }
        if sections == before {
            return seal(&sections);
        }
    }
}

/// The sections, where the trailer is as it is written.
fn cut(bytes: &[u8]) -> Option<[Vec<u8>; 5]> {
    let body = bytes.len().checked_sub(24)?;
    let number = |at: usize| {
        let bytes: [u8; 4] = bytes[body + 4 * at..body + 4 * at + 4].try_into().expect("four bytes");
        u32::from_le_bytes(bytes) as usize
    };
    let mut sections = [const { Vec::new() }; 5];
    for (at, section) in sections.iter_mut().enumerate() {
        let end = if at < 4 { number(at + 1) } else { body };
        *section = bytes.get(number(at)..end)?.to_vec();
    }
    (seal(&sections) == bytes).then_some(sections)
}

/// Without stretches, long ones first.
fn without_stretches(mut bytes: Vec<u8>, differs: &impl Fn(&[u8]) -> bool) -> Vec<u8> {
    let mut length = bytes.len().next_power_of_two();
    while length > 0 {
        let mut at = 0;
        while at < bytes.len() {
            let end = (at + length).min(bytes.len());
            let shorter = [&bytes[..at], &bytes[end..]].concat();
            if differs(&shorter) {
                bytes = shorter;
            } else {
                at += length;
            }
        }
        length /= 2;
    }
    bytes
}
