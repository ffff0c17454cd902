//! Runs a trace and checks a report, by the static library of `semper`, which is proved.
//!
//! This crate is not proved. It does no more than to call the library as `include/semper.h` asks.
#![deny(missing_docs)]

use std::fmt;

// The functions of `include/semper.h`. Nothing compares the two.
extern "C" {
    fn semper_version() -> u32;
    fn semper_run(
        text: *const u8,
        length: usize,
        seed: u64,
        out: *mut u8,
        capacity: usize,
        written: *mut usize,
    ) -> u32;
    fn semper_check(
        text: *const u8,
        length: usize,
        out: *mut u8,
        capacity: usize,
        written: *mut usize,
    ) -> u32;
    fn semper_contents(
        text: *const u8,
        length: usize,
        out: *mut u8,
        capacity: usize,
        written: *mut usize,
    ) -> u32;
}

/// The number that says that a buffer is too small.
const TOO_SMALL: u32 = 10;

/// How many bytes a text has room for before its length is known.
const ROOM: usize = 4096;

/// How the program ends, as `docs/texts.md` tells. The library, which reads and writes only memory,
/// ends with `Done`, `TraceRefused`, `Memory` or `ReportRefused`.
#[derive(Clone, Copy, Debug, PartialEq, Eq, Hash)]
#[repr(u8)]
pub enum Status {
    /// Done: the text is the answer.
    Done = 0,
    /// The words are no command.
    Usage = 1,
    /// The input is no trace: the text tells the first bad line, and why.
    TraceRefused = 2,
    /// The input could not be read.
    ReadFault = 3,
    /// The output could not be written.
    WriteFault = 4,
    /// Memory was refused: there is no text.
    Memory = 5,
    /// The input is not the report of a complete schedule: the text tells why.
    ReportRefused = 9,
}

impl Status {
    /// All of them.
    pub const ALL: [Status; 7] = [
        Status::Done,
        Status::Usage,
        Status::TraceRefused,
        Status::ReadFault,
        Status::WriteFault,
        Status::Memory,
        Status::ReportRefused,
    ];

    /// The exit status of the program.
    #[must_use]
    pub fn number(self) -> u8 {
        self as u8
    }

    /// The status of that number, if one has it.
    #[must_use]
    pub fn from_number(number: u8) -> Option<Status> {
        Status::ALL.into_iter().find(|it| it.number() == number)
    }
}

impl fmt::Display for Status {
    fn fmt(&self, f: &mut fmt::Formatter<'_>) -> fmt::Result {
        f.write_str(match self {
            Status::Done => "done",
            Status::Usage => "no command",
            Status::TraceRefused => "the trace is refused",
            Status::ReadFault => "the input could not be read",
            Status::WriteFault => "the output could not be written",
            Status::Memory => "out of memory",
            Status::ReportRefused => "the report is refused",
        })
    }
}

/// The version of the library's interface, 1.
#[must_use]
pub fn version() -> u32 {
    // SAFETY: the function asks for nothing.
    unsafe { semper_version() }
}

/// Runs the trace by the seed: its report, or the line that refuses it.
#[must_use]
pub fn run(trace: &[u8], seed: u64) -> (Status, Vec<u8>) {
    // SAFETY: `answer` gives a buffer as `semper_run` asks, and the trace is borrowed meanwhile.
    answer(|out, capacity, written| unsafe {
        semper_run(trace.as_ptr(), trace.len(), seed, out, capacity, written)
    })
}

/// Whether the bytes are the report of a complete schedule of its trace: `ok`, or the line that
/// tells why they are not.
#[must_use]
pub fn check(report: &[u8]) -> (Status, Vec<u8>) {
    // SAFETY: as in `run`.
    answer(|out, capacity, written| unsafe {
        semper_check(report.as_ptr(), report.len(), out, capacity, written)
    })
}

/// Who wrote each address of memory last, after the schedule of the report; or the line that tells
/// why the bytes are none.
#[must_use]
pub fn contents(report: &[u8]) -> (Status, Vec<u8>) {
    // SAFETY: as in `run`.
    answer(|out, capacity, written| unsafe {
        semper_contents(report.as_ptr(), report.len(), out, capacity, written)
    })
}

/// Calls until the buffer is large enough: a second call, at most.
fn answer(call: impl Fn(*mut u8, usize, *mut usize) -> u32) -> (Status, Vec<u8>) {
    let mut room = ROOM;
    loop {
        let mut text = vec![0; room];
        let mut written = 0;
        let number = call(text.as_mut_ptr(), text.len(), &mut written);
        if number == TOO_SMALL {
            room = written;
            continue;
        }
        let status = u8::try_from(number).ok().and_then(Status::from_number);
        text.truncate(written);
        return (status.expect("the library has no other status"), text);
    }
}
