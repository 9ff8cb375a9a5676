//! A list of runs on one line of text, for the vectors of test programs: a label, a space, and in hexadecimal digits the buffer's
//! length (2 bytes), the job number (4) and the list's numbers (4 each), all little-endian.

use crate::book::hex;
use crate::job_list;
use crate::list_cases::{FAR_TOO_MANY, ListCase, list_case};

/// The lists of a seed that are short enough for lines.
pub fn short_cases(seed: u64) -> impl Iterator<Item = ListCase> {
    (0..).map(move |n| list_case(seed, n)).filter(|case| case.label != FAR_TOO_MANY)
}

/// The line of a list.
pub fn show(case: &ListCase) -> String {
    let mut bytes = (case.room as u16).to_le_bytes().to_vec();
    bytes.extend(case.number.to_le_bytes());
    bytes.extend(case.list.iter().flat_map(|number| number.to_le_bytes()));
    format!("{} {}", case.label, hex(&bytes))
}

/// What the independent writer says of the list of a line: the label, then `0 0` and the book in hexadecimal digits, or the
/// refusal's number and place. Or what is wrong with the line.
pub fn written(line: &str) -> Result<String, String> {
    let words: Vec<&str> = line.split_whitespace().collect();
    let &[label, digits] = &words[..] else {
        return Err(format!("a label and hexadecimal digits are wanted, and these are {} words", words.len()));
    };
    let bytes = from_hex(digits).ok_or_else(|| format!("`{digits}` are no hexadecimal digits, two a byte"))?;
    let (head, list) = bytes.split_at_checked(6).filter(|(_, list)| list.len() % 4 == 0).ok_or_else(|| {
        format!("2 bytes of length, 4 of job number and 4 a number are wanted, and these are {}", bytes.len())
    })?;
    let room = u16::from_le_bytes([head[0], head[1]]);
    let number = u32::from_le_bytes([head[2], head[3], head[4], head[5]]);
    let list: Vec<i32> = list.chunks_exact(4).map(|n| i32::from_le_bytes([n[0], n[1], n[2], n[3]])).collect();
    Ok(match job_list::book_of(number, &list, room.into()) {
        Ok(book) => format!("{label} 0 0 {}", hex(&book)),
        Err(refusal) => format!("{label} {} {}", refusal.number, refusal.place),
    })
}

fn from_hex(digits: &str) -> Option<Vec<u8>> {
    let digit = |byte: &u8| char::from(*byte).to_digit(16).map(|digit| digit as u8);
    let digits: Vec<u8> = digits.as_bytes().iter().map(digit).collect::<Option<_>>()?;
    let bytes = digits.chunks_exact(2);
    bytes.remainder().is_empty().then(|| bytes.map(|pair| 16 * pair[0] + pair[1]).collect())
}
