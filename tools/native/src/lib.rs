//! The proved functions, each behind a safe one: from the static library where that was there when this was built, else
//! from the program `replies`.

#[cfg(not(linked))]
mod program;

/// Whether the static library was there when this was built.
pub const LINKED: bool = cfg!(linked);

/// Whether there is a library or a program to call. Without one a call panics.
pub fn is_there() -> bool {
    #[cfg(linked)]
    return true;
    #[cfg(not(linked))]
    program::is_there()
}

/// A slice goes over as its pointer and its length.
#[cfg(linked)]
mod bare {
    use super::Finding;

    unsafe extern "C" {
        pub fn baktuven_check(job: *const u8, length: usize) -> u32;
        pub fn baktuven_plan(job: *const u8, length: usize) -> u32;
        pub fn baktuven_nest(job: *const u8, length: usize, nest: *mut u32, nest_length: usize) -> u32;
        pub fn baktuven_write(
            job: *const u8,
            length: usize,
            document: *mut u8,
            document_length: usize,
            segments: *mut u64,
            segments_length: usize,
            findings: *mut Finding,
            findings_length: usize,
            stops: *mut u64,
            stops_length: usize,
            counts: *mut u64,
            counts_length: usize,
        ) -> u32;
    }
}

/// The refusal of a byte string, 1 to 5, or 0.
#[cfg(linked)]
pub fn check(job: &[u8]) -> u32 {
    // SAFETY: the two are those of a slice, which is only read and only during the call.
    unsafe { bare::baktuven_check(job.as_ptr(), job.len()) }
}

#[cfg(not(linked))]
pub fn check(job: &[u8]) -> u32 {
    program::check(job)
}

/// Where each row hangs, three numbers a row as far as the list takes them. The refusal, 1 to 5, or 0.
#[cfg(linked)]
pub fn nest(job: &[u8], nest: &mut [u32]) -> u32 {
    // SAFETY: the pairs are those of slices, which are only used during the call; the job is only read.
    unsafe { bare::baktuven_nest(job.as_ptr(), job.len(), nest.as_mut_ptr(), nest.len()) }
}

#[cfg(not(linked))]
pub fn nest(job: &[u8], nest: &mut [u32]) -> u32 {
    program::nest(job, nest)
}

/// A finding: its kind and nine values.
pub type Finding = [u64; 10];

/// The lists that `write` is lent: bytes; three numbers a segment, findings, three numbers a stop; and the
/// counts of the four.
pub struct Lists<'a> {
    pub document: &'a mut [u8],
    pub segments: &'a mut [u64],
    pub findings: &'a mut [Finding],
    pub stops: &'a mut [u64],
    pub counts: &'a mut [u64],
}

/// Lists of its own to lend, for so many bytes and so many items of each other kind.
pub struct Room {
    pub document: Vec<u8>,
    pub segments: Vec<u64>,
    pub findings: Vec<Finding>,
    pub stops: Vec<u64>,
    pub counts: [u64; 4],
}

impl Room {
    pub fn new(bytes: usize, items: usize) -> Room {
        Room {
            document: vec![0; bytes],
            segments: vec![0; items * 3],
            findings: vec![[0; 10]; items],
            stops: vec![0; items * 3],
            counts: [0; 4],
        }
    }

    pub fn lists(&mut self) -> Lists<'_> {
        Lists {
            document: &mut self.document,
            segments: &mut self.segments,
            findings: &mut self.findings,
            stops: &mut self.stops,
            counts: &mut self.counts,
        }
    }
}

/// Writes a job. The answer's number, 0 to 7 (docs/RULES.md, "Answers").
#[cfg(linked)]
pub fn write(job: &[u8], lists: Lists) -> u32 {
    // SAFETY: the pairs are those of slices, which are only used during the call; the job is only read.
    unsafe {
        bare::baktuven_write(
            job.as_ptr(),
            job.len(),
            lists.document.as_mut_ptr(),
            lists.document.len(),
            lists.segments.as_mut_ptr(),
            lists.segments.len(),
            lists.findings.as_mut_ptr(),
            lists.findings.len(),
            lists.stops.as_mut_ptr(),
            lists.stops.len(),
            lists.counts.as_mut_ptr(),
            lists.counts.len(),
        )
    }
}

#[cfg(not(linked))]
pub fn write(job: &[u8], lists: Lists) -> u32 {
    program::write(job, lists)
}

/// Whether the plan of a job is complete: 0, or 16 where it isn't; the refusal, 1 to 5.
#[cfg(linked)]
pub fn plan(job: &[u8]) -> u32 {
    // SAFETY: the two are those of a slice, which is only read and only during the call.
    unsafe { bare::baktuven_plan(job.as_ptr(), job.len()) }
}

#[cfg(not(linked))]
pub fn plan(job: &[u8]) -> u32 {
    program::plan(job)
}
