//! `date TEXT`: reads a date by the proved parser.
use std::process::ExitCode;

/// As in `crates/date_library/src/lib.rt`, which nothing compares with this.
#[repr(C)]
struct ReadDate {
    status: u8,
    month: u8,
    day: u8,
    year: u16,
    error_start: usize,
    error_end: usize,
}

unsafe extern "C" {
    fn read_date(bytes: *const u8, length: usize) -> ReadDate;
}

fn main() -> ExitCode {
    let text = std::env::args().nth(1).unwrap_or_default();
    // SAFETY: the bytes are those of a slice, which lasts for the call.
    let read = unsafe { read_date(text.as_ptr(), text.len()) };
    match read.status {
        0 => println!("day {} of month {} of {}", read.day, read.month, read.year),
        1 => println!("no date at bytes {}..{}", read.error_start, read.error_end),
        _ => println!("refused"),
    }
    ExitCode::from(read.status)
}
