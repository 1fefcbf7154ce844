//! The proved functions through the program `replies`, which the gate builds in any case: each call is a request to it
//! and its reply (crates/replies/src/main.rt has the form). The static library would have to be proved once more.
//!
//! Each thread has a program of its own, which ends with the thread.

use super::{Finding, Lists};
use std::cell::RefCell;
use std::io::{Read, Write};
use std::path::PathBuf;
use std::process::{Child, Command, Stdio};

/// Where the gate leaves the program, unless `BAKTUVEN_REPLIES` names another place (from the repository's root on, if
/// relative).
const PROGRAM: &str = "crates/replies/out/replies";

/// The first byte of a request.
const CHECK: u8 = 0;
const PLAN: u8 = 1;
const NEST: u8 = 2;
const WRITE: u8 = 3;

fn path() -> PathBuf {
    let root = PathBuf::from(env!("CARGO_MANIFEST_DIR")).join("../..");
    root.join(std::env::var_os("BAKTUVEN_REPLIES").unwrap_or_else(|| PROGRAM.into()))
}

/// Whether the program is there.
pub fn is_there() -> bool {
    path().is_file()
}

/// A running program.
struct Running(Child);

impl Running {
    fn start() -> Running {
        let path = path();
        let child = Command::new(&path).stdin(Stdio::piped()).stdout(Stdio::piped()).spawn();
        Running(child.unwrap_or_else(|error| panic!("{} does not start: {error}", path.display())))
    }

    /// Sends a request, and reads a reply of so many bytes.
    fn ask(&mut self, request: &[u8], length: usize) -> Vec<u8> {
        let mut reply = vec![0; length];
        let input = self.0.stdin.as_mut().expect("a pipe");
        input.write_all(request).expect("the program takes the request");
        let output = self.0.stdout.as_mut().expect("a pipe");
        output.read_exact(&mut reply).expect("the program replies");
        reply
    }
}

impl Drop for Running {
    /// The end of its input ends the program.
    fn drop(&mut self) {
        drop(self.0.stdin.take());
        let _ = self.0.wait();
    }
}

thread_local! {
    static RUNNING: RefCell<Running> = RefCell::new(Running::start());
}

fn ask(request: &[u8], length: usize) -> Vec<u8> {
    RUNNING.with_borrow_mut(|running| running.ask(request, length))
}

/// The beginning of a request: what is asked, and the job.
fn request(what: u8, job: &[u8]) -> Vec<u8> {
    let mut request = vec![what];
    put_bytes(&mut request, job);
    request
}

fn put_length(request: &mut Vec<u8>, length: usize) {
    let length = u32::try_from(length).expect("a list of fewer than 2^32 items");
    request.extend(length.to_le_bytes());
}

fn put_bytes(request: &mut Vec<u8>, bytes: &[u8]) {
    put_length(request, bytes.len());
    request.extend(bytes);
}

fn put_words(request: &mut Vec<u8>, words: &[u64]) {
    put_length(request, words.len());
    request.extend(words.iter().flat_map(|word| word.to_le_bytes()));
}

fn put_findings(request: &mut Vec<u8>, findings: &[Finding]) {
    put_length(request, findings.len());
    request.extend(findings.iter().flatten().flat_map(|word| word.to_le_bytes()));
}

/// What is left of a reply.
struct Reply<'a>(&'a [u8]);

impl Reply<'_> {
    fn take<const N: usize>(&mut self) -> [u8; N] {
        let (front, rest) = self.0.split_first_chunk().expect("a reply of that length");
        self.0 = rest;
        *front
    }

    fn number(&mut self) -> u32 {
        u32::from_le_bytes(self.take())
    }

    fn words(&mut self, words: &mut [u64]) {
        for word in words {
            *word = u64::from_le_bytes(self.take());
        }
    }
}

/// The refusal of a byte string, 1 to 5, or 0.
pub fn check(job: &[u8]) -> u32 {
    Reply(&ask(&request(CHECK, job), 4)).number()
}

/// Whether the plan of a job is complete: 0, or 16 where it isn't; the refusal, 1 to 5.
pub fn plan(job: &[u8]) -> u32 {
    Reply(&ask(&request(PLAN, job), 4)).number()
}

/// Where each row hangs, three numbers a row as far as the list takes them. The refusal, 1 to 5, or 0.
pub fn nest(job: &[u8], nest: &mut [u32]) -> u32 {
    let mut request = request(NEST, job);
    put_length(&mut request, nest.len());
    request.extend(nest.iter().flat_map(|number| number.to_le_bytes()));
    let bytes = ask(&request, 4 + 4 * nest.len());
    let mut reply = Reply(&bytes);
    let answer = reply.number();
    for number in nest {
        *number = reply.number();
    }
    answer
}

/// Writes a job. The answer, 0 to 7; the counts are touched with 0 and 7 alone.
pub fn write(job: &[u8], lists: Lists) -> u32 {
    let mut request = request(WRITE, job);
    put_bytes(&mut request, lists.document);
    put_words(&mut request, lists.segments);
    put_findings(&mut request, lists.findings);
    put_words(&mut request, lists.stops);
    let words = 4 + lists.segments.len() + 10 * lists.findings.len() + lists.stops.len();
    let bytes = ask(&request, 4 + lists.document.len() + 8 * words);
    let mut reply = Reply(&bytes);
    let answer = reply.number();
    let mut counts = [0; 4];
    reply.words(&mut counts);
    if matches!(answer, 0 | 7) {
        for (place, count) in lists.counts.iter_mut().zip(counts) {
            *place = count;
        }
    }
    for byte in lists.document {
        *byte = u8::from_le_bytes(reply.take());
    }
    reply.words(lists.segments);
    for finding in lists.findings {
        reply.words(finding);
    }
    reply.words(lists.stops);
    answer
}
