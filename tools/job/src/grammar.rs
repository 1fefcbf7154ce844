//! Documents as the grammar has them (X12.6; docs/RULES.md, "Grammar").

use crate::Envelope;

/// A segment as it is read.
#[derive(Debug, Clone, PartialEq, Eq)]
pub struct Read<'a> {
    pub id: &'a [u8],
    pub elements: Vec<&'a [u8]>,
}

impl<'a> Read<'a> {
    /// An element from 1 on, empty past the end.
    pub fn element(&self, at: u32) -> &'a [u8] {
        self.elements.get(at as usize - 1).copied().unwrap_or_default()
    }

    /// The components of an element, read at the component separator.
    pub fn components(&self, at: u32, envelope: &Envelope) -> Vec<&'a [u8]> {
        self.element(at).split(|byte| *byte == envelope.component).collect()
    }
}

/// The reading of a document: its segments. None where the grammar doesn't cover it.
pub fn reading<'a>(document: &'a [u8], envelope: &Envelope) -> Option<Vec<Read<'a>>> {
    let mut segments = Vec::new();
    let mut rest = document;
    while !rest.is_empty() {
        let end = rest.iter().position(|byte| *byte == envelope.segment)? + 1;
        let end = end + usize::from(envelope.line_break);
        segments.push(segment(rest.get(..end)?, envelope)?);
        rest = &rest[end..];
    }
    Some(segments)
}

/// The bytes as one segment: an identifier, not empty, elements each behind an element separator, the terminator, then
/// one line feed if line breaks are on.
fn segment<'a>(bytes: &'a [u8], envelope: &Envelope) -> Option<Read<'a>> {
    let bytes = if envelope.line_break { bytes.strip_suffix(b"\n")? } else { bytes };
    let body = bytes.strip_suffix(&[envelope.segment])?;
    let mut pieces = body.split(|byte| *byte == envelope.element);
    let id = pieces.next().filter(|id| !id.is_empty())?;
    (!body.contains(&envelope.segment)).then(|| Read { id, elements: pieces.collect() })
}

/// In how many ways a document is cut into segments, every cut tried.
pub fn readings(document: &[u8], envelope: &Envelope) -> u64 {
    let mut ways = vec![0; document.len() + 1];
    ways[document.len()] = 1;
    for start in (0..document.len()).rev() {
        let ends = start + 1..=document.len();
        ways[start] = ends
            .filter(|&end| segment(&document[start..end], envelope).is_some())
            .map(|end| ways[end])
            .fold(0, u64::saturating_add);
    }
    ways[0]
}

#[cfg(test)]
mod tests {
    use super::*;

    #[test]
    fn one_reading_or_none() {
        let mut envelope = Envelope::default();
        let document = b"SVC*HC::X**5~CLP~";
        let read = reading(document, &envelope).expect("a document");
        assert_eq!((read.len(), read[0].id, read[0].elements.len()), (2, &b"SVC"[..], 3));
        assert_eq!(read[0].components(1, &envelope), [&b"HC"[..], b"", b"X"]);
        assert_eq!((read[0].element(3), read[0].element(4)), (&b"5"[..], &b""[..]));
        assert!(read[1].elements.is_empty());
        assert_eq!(readings(document, &envelope), 1);
        for bad in [&b"SVC"[..], b"*A~", b"~", b"A~~"] {
            assert_eq!((reading(bad, &envelope), readings(bad, &envelope)), (None, 0));
        }
        // The line feed as terminator and as the break behind it.
        envelope.line_break = true;
        envelope.segment = b'\n';
        for (document, count) in [(&b"A\n\nB\n\n"[..], 1), (b"A\nB\n\n", 0), (b"A\n\n\nB\n\n", 0), (b"", 1)] {
            assert_eq!(readings(document, &envelope), count);
            assert_eq!(reading(document, &envelope).is_some(), count == 1);
        }
    }
}
