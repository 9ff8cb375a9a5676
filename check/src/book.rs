//! The kinds of records of both books, and the bytes of a job book (01, "Job book"). Fields are little-endian.

use crate::job::{Job, Point};

/// Kind of a job book's head.
pub const JOB_HEAD: u8 = 0x48;
/// Kind of a run.
pub const RUN: u8 = 0x52;
/// Kind of an end, in both books.
pub const END: u8 = 0x5A;
/// Kind of a plan book's head.
pub const PLAN_HEAD: u8 = 0x51;
/// Kind of a route.
pub const ROUTE: u8 = 0x4F;
/// Kind of the head of a plan book that was written before there were groups.
pub const OLDER_HEAD: u8 = 0x50;
/// Kind of a route in such a book.
pub const OLDER_ROUTE: u8 = 0x4E;
/// Kind of a corner.
pub const CORNER: u8 = 0x43;

fn point_bytes(p: Point) -> [u8; 8] {
    let mut bytes = [0; 8];
    bytes[..4].copy_from_slice(&p.x.to_le_bytes());
    bytes[4..].copy_from_slice(&p.y.to_le_bytes());
    bytes
}

/// The job book of a job.
pub fn job_bytes(job: &Job) -> Vec<u8> {
    let mut bytes = vec![JOB_HEAD];
    bytes.extend(job.number.to_le_bytes());
    for run in &job.runs {
        bytes.push(RUN);
        bytes.extend(run.number.to_le_bytes());
        bytes.extend(point_bytes(run.first));
        bytes.extend(point_bytes(run.second));
    }
    bytes.push(END);
    bytes.extend(u16::try_from(job.runs.len()).expect("a count that its field holds").to_le_bytes());
    bytes
}

/// Bytes as hexadecimal digits, two a byte.
pub fn hex(bytes: &[u8]) -> String {
    bytes.iter().map(|byte| format!("{byte:02x}")).collect()
}
