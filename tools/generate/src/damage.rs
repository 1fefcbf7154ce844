//! Bytes that were a job.

use crate::random::Random;
use job::*;

/// Damages a byte string in a few places.
pub fn damage(random: &mut Random, bytes: &mut Vec<u8>) {
    for _ in 0..1 + random.below(3) {
        let body = bytes.len().saturating_sub(24);
        match random.below(9) {
            0 => {
                let at = random.index(bytes.len());
                if let Some(byte) = bytes.get_mut(at) {
                    *byte ^= 1 << random.below(8);
                }
            }
            1 | 2 => {
                // A byte of the body: a mark, a count, a number.
                let at = random.index(body);
                if at < body {
                    bytes[at] = *random.pick(&[0, 1, 2, 3, 5, 6, 7, 16, 32, 33, 127, 128, 255]);
                }
            }
            3 => {
                let at = random.index(body);
                if at + 4 <= body {
                    let number = u32::from_le_bytes([bytes[at], bytes[at + 1], bytes[at + 2], bytes[at + 3]]);
                    let changed = number.wrapping_add(*random.pick(&[1, 2, u32::MAX, 256, 1 << 31]));
                    bytes[at..at + 4].copy_from_slice(&changed.to_le_bytes());
                }
            }
            4 => {
                // A number of the trailer.
                if bytes.len() >= 24 {
                    let at = body + random.index(6) * 4;
                    let number = u32::from_le_bytes([bytes[at], bytes[at + 1], bytes[at + 2], bytes[at + 3]]);
                    let changed = number.wrapping_add(*random.pick(&[1, 4, u32::MAX, u32::MAX - 3, 1 << 16]));
                    bytes[at..at + 4].copy_from_slice(&changed.to_le_bytes());
                }
            }
            5 => bytes.truncate(random.index(bytes.len() + 1)),
            6 => {
                let at = random.index(bytes.len() + 1);
                bytes.insert(at, random.bits() as u8);
            }
            7 => {
                if !bytes.is_empty() {
                    bytes.remove(random.index(bytes.len()));
                }
            }
            _ => {
                let at = random.index(body);
                let end = (at + random.index(8)).min(body);
                for byte in &mut bytes[at..end] {
                    *byte = random.bits() as u8;
                }
            }
        }
    }
}

/// Damages the sections and seals them again, so that the trailer stands.
pub fn damage_within(random: &mut Random, job: &Job) -> Vec<u8> {
    let mut all = sections(job);
    let at = random.index(5);
    let section = &mut all[at];
    match random.below(4) {
        0 => {
            let at = random.index(section.len() + 1);
            section.insert(at, *random.pick(&[0, 1, 2, 255]));
        }
        1 => {
            if !section.is_empty() {
                section.remove(random.index(section.len()));
            }
        }
        2 => {
            let at = random.index(section.len());
            if let Some(byte) = section.get_mut(at) {
                *byte = *random.pick(&[0, 1, 2, 3, 4, 5, 6, 33, 255]);
            }
        }
        _ => {
            // A byte goes over to the next section.
            if at < 4
                && let Some(byte) = all[at].pop()
            {
                all[at + 1].insert(0, byte);
            }
        }
    }
    seal(&all)
}

/// Changes one number of a job, so that it is still read: mostly refusals 3 to 5, or an odd plan.
pub fn tweak(random: &mut Random, job: &mut Job) {
    let number = *random.pick(&[0, 1, 2, 3, 7, 8, 31, 32, 33, 255, 256, u32::MAX]);
    let at = random.index(job.spec.loops.len());
    let table = random.index(job.spec.tables.len());
    match random.below(14) {
        0 => {
            if let Some(def) = job.spec.loops.get_mut(at) {
                def.parent = random.chance(70).then_some(number);
            }
        }
        1 => {
            if let Some(def) = job.spec.loops.get_mut(at) {
                def.children.push(number);
            }
        }
        2 => job.spec.roots.push(number),
        3 => {
            if let Some(def) = job.spec.tables.get_mut(table) {
                def.loops.push(number);
            }
        }
        4 => {
            if let Some(order) = job.layout.order.get_mut(at) {
                order.push(if random.chance(50) { Item::Loop(number) } else { Item::Segment(number) });
            }
        }
        5 => job.envelope.component = random.bits() as u8,
        6 => job.envelope.repetition = Some(random.bits() as u8),
        7 => {
            if let Some(def) = job.spec.loops.get_mut(at) {
                let length = random.index(5);
                def.trigger = (0..length).map(|_| *random.pick(b"AZ09a-@[/:")).collect();
            }
        }
        8 => {
            if let Some(def) = job.spec.tables.get_mut(table) {
                def.parent = Some(number);
            }
        }
        9 => {
            if let Some(def) = job.spec.tables.get_mut(table) {
                def.ancestors.push(number);
            }
        }
        10 => {
            if let Some(capacity) = job.layout.capacity.get_mut(table) {
                *capacity = number;
            }
        }
        11 => {
            let segments = job.plan.iter_mut().flat_map(|plan| &mut plan.segments);
            let mut elements: Vec<&mut ElementPlan> =
                segments.flat_map(|segment| &mut segment.elements).collect();
            let at = random.index(elements.len());
            if let Some(element) = elements.get_mut(at) {
                element.element = number;
            }
        }
        12 => job.envelope.sender_id.push(random.bits() as u8),
        _ => {
            if let Some(data) = job.data.get_mut(table) {
                data.rows = number;
            }
        }
    }
}
