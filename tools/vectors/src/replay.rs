//! The form read back: what the program prints that asks `check` for its answers.

use crate::line;

/// What is printed for an input; nothing more from the first record on that can't be read.
pub fn replay(input: &[u8], mut check: impl FnMut(&[u8]) -> u8) -> String {
    let mut reader = Reader { input, rest: input, job: Vec::new(), counts: [0; 6], output: String::new() };
    while !reader.rest.is_empty() {
        if reader.record(&mut check).is_none() {
            return reader.output;
        }
    }
    reader.output + "end\n"
}

struct Reader<'a> {
    input: &'a [u8],
    rest: &'a [u8],
    job: Vec<u8>,
    counts: [u64; 6],
    output: String,
}

impl<'a> Reader<'a> {
    fn take(&mut self, length: usize) -> Option<&'a [u8]> {
        let (head, rest) = self.rest.split_at_checked(length)?;
        self.rest = rest;
        Some(head)
    }

    fn byte(&mut self) -> Option<u8> {
        self.take(1).map(|bytes| bytes[0])
    }

    fn number(&mut self) -> Option<usize> {
        let bytes = self.take(4)?;
        Some(u32::from_le_bytes(bytes.try_into().ok()?) as usize)
    }

    fn judge(&mut self, place: usize, got: u8) -> Option<()> {
        let wanted = self.byte()? - b'0';
        if let Some(count) = self.counts.get_mut(usize::from(got)) {
            *count += 1;
        }
        if got != wanted {
            self.output.push_str(&format!("differs at {place}: {got} for {wanted}\n"));
        }
        Some(())
    }

    fn record(&mut self, check: &mut impl FnMut(&[u8]) -> u8) -> Option<()> {
        match self.byte()? {
            b'J' => {
                let length = self.number()?;
                self.job = self.take(length)?.to_vec();
            }
            b'T' => {
                for length in 0..=self.job.len() {
                    let got = check(&self.job[..length]);
                    self.judge(length, got)?;
                }
            }
            b'F' => {
                let mask = self.byte()?;
                for at in 0..self.job.len() {
                    let mut job = self.job.clone();
                    job[at] ^= mask;
                    self.judge(at, check(&job))?;
                }
            }
            b'P' => {
                let bytes = self.take(4)?;
                for at in 0..self.job.len().saturating_sub(3) {
                    let mut job = self.job.clone();
                    job[at..at + 4].copy_from_slice(bytes);
                    self.judge(at, check(&job))?;
                }
            }
            b'S' => {
                let place = self.input.len() - self.rest.len();
                let bytes = self.string()?;
                self.judge(place, check(&bytes))?;
            }
            b'N' => {
                let length = self.byte()?;
                let name = String::from_utf8_lossy(self.take(usize::from(length))?).into_owned();
                self.output.push_str(&line(&name, &self.counts));
                self.counts = [0; 6];
            }
            _ => return None,
        }
        Some(())
    }

    fn string(&mut self) -> Option<Vec<u8>> {
        let mut made = Vec::new();
        loop {
            match self.byte()? {
                b'.' => return Some(made),
                b'C' => {
                    let (from, length) = (self.number()?, self.number()?);
                    made.extend_from_slice(self.job.get(from..from + length)?);
                }
                b'B' => {
                    let length = self.number()?;
                    made.extend_from_slice(self.take(length)?);
                }
                b'R' => {
                    let length = self.number()?;
                    made.resize(made.len() + length, self.byte()?);
                }
                _ => return None,
            }
        }
    }
}
