//! Inputs as the rows of docs/DIFFERENCES.md write them.

use crate::host_writer::Unit;

/// Bytes in hex, `80 40 00`; `9×FF` for nine bytes FF; `no bytes`.
pub fn bytes(text: &str) -> Option<Vec<u8>> {
    if text == "no bytes" {
        return Some(vec![]);
    }
    let runs: Option<Vec<Vec<u8>>> = text.split(' ').map(run).collect();
    Some(runs?.concat())
}

fn run(word: &str) -> Option<Vec<u8>> {
    let (count, byte) = word.split_once('×').unwrap_or(("1", word));
    let byte = (byte.len() == 2).then(|| u8::from_str_radix(byte, 16).ok())??;
    Some(vec![byte; count.parse().ok()?])
}

/// Packets, with `; ` between them.
pub fn packets(text: &str) -> Option<Vec<Vec<u8>>> {
    text.split("; ").map(bytes).collect()
}

/// A number with commas between groups of digits, and what it is as a power after it: `8,589,934,592 (2^33)`.
pub fn number<T: TryFrom<u64>>(text: &str) -> Option<T> {
    let digits = text.split_once(" (").map_or(text, |(digits, _)| digits);
    T::try_from(digits.replace(',', "").parse().ok()?).ok()
}

/// Two numbers, with `and` between them.
pub fn pair<A: TryFrom<u64>, B: TryFrom<u64>>(text: &str) -> Option<(A, B)> {
    let (first, second) = text.split_once(" and ")?;
    Some((number(first)?, number(second)?))
}

/// A unit of video that differs from the least one in its copyright bit.
pub fn unit(text: &str) -> Option<Unit> {
    let copyright = number(text.strip_prefix("a unit with copyright bit ")?)?;
    Some(Unit { pid: 0x100, id: 0xe0, copyright, ..Unit::default() })
}
