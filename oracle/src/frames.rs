//! Many cases in one file: each is its length in decimal, LF, and then its bytes.

use crate::reading::cut_line;

/// Adds one case.
pub fn push(out: &mut Vec<u8>, case: &[u8]) {
    out.extend_from_slice(format!("{}\n", case.len()).as_bytes());
    out.extend_from_slice(case);
}

/// The cases of a file; None where a length or its bytes are not there.
pub fn split(input: &[u8]) -> Option<Vec<&[u8]>> {
    let mut cases = Vec::new();
    let mut rest = input;
    while !rest.is_empty() {
        let (head, body) = cut_line(rest)?;
        let length: usize = std::str::from_utf8(head).ok()?.parse().ok()?;
        cases.push(body.get(..length)?);
        rest = body.get(length..)?;
    }
    Some(cases)
}
