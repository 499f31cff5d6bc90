//! What an answer by HTTP/1.1 has.
use super::answers::MOST;

/// Where some bytes stand first.
fn find(bytes: &[u8], of: &[u8]) -> Option<usize> {
    bytes.windows(of.len()).position(|window| window == of)
}

/// The head of an answer in small letters, and what stands behind it.
fn split_head(answer: &[u8]) -> Option<(String, &[u8])> {
    let end = find(answer, b"\r\n\r\n")?;
    let head = String::from_utf8_lossy(&answer[..end]).to_ascii_lowercase();
    Some((head, &answer[end + 4..]))
}

fn find_header<'a>(head: &'a str, name: &str) -> Option<&'a str> {
    let mut pairs = head.lines().skip(1).filter_map(|line| line.split_once(':'));
    pairs
        .find(|(key, _)| *key == name)
        .map(|(_, value)| value.trim())
}

/// How many exports a gateway says were late: a whole number of at most 19 digits, and anything else says nothing.
pub(super) fn parse_late(answer: &[u8]) -> Option<u64> {
    let (head, _) = split_head(answer)?;
    let late = find_header(&head, "kotskhin-late")?;
    let is_number = late.len() <= 19 && late.bytes().all(|byte| byte.is_ascii_digit());
    late.parse().ok().filter(|_| is_number)
}

/// The body of an answer, as it came so far: nothing while more of it is to come. One that is longer than is looked at, or that is none, is
/// empty.
pub(super) fn parse_body(answer: &[u8], is_over: bool) -> Option<Vec<u8>> {
    let (head, rest) = split_head(answer)?;
    if find_header(&head, "transfer-encoding").is_some_and(|coding| coding.ends_with("chunked")) {
        return unchunk(rest);
    }
    match find_header(&head, "content-length").and_then(|length| length.parse::<usize>().ok()) {
        Some(length) if length > MOST => Some(Vec::new()),
        Some(length) => rest.get(..length).map(<[u8]>::to_vec),
        // (an answer that has none does not say its length)
        None => {
            let is_none = head.split(' ').nth(1) == Some("204");
            (is_over || is_none).then(|| rest.to_vec())
        }
    }
}

/// The first line of a body, of so many bytes at most, as it came so far, and whether it is whole. Of a body by chunks it is that of the
/// first one.
pub(super) fn parse_first_line(answer: &[u8], most: usize) -> (&[u8], bool) {
    let Some((head, mut rest)) = split_head(answer) else {
        return (&[], false);
    };
    let mut length = find_header(&head, "content-length").and_then(|length| length.parse().ok());
    if find_header(&head, "transfer-encoding").is_some_and(|coding| coding.ends_with("chunked")) {
        let Some(end) = find(rest, b"\r\n") else {
            return (&[], false);
        };
        length = usize::from_str_radix(&String::from_utf8_lossy(&rest[..end]), 16).ok();
        rest = &rest[end + 2..];
    }
    let most = length.map_or(most, |length| most.min(length));
    let rest = &rest[..most.min(rest.len())];
    let line = rest.split(|byte| *byte == b'\n').next().unwrap_or_default();
    (line, line.len() < rest.len() || rest.len() == most)
}

/// A body that comes by chunks (RFC 9112, 7.1).
fn unchunk(mut rest: &[u8]) -> Option<Vec<u8>> {
    let mut body = Vec::new();
    loop {
        let end = find(rest, b"\r\n")?;
        let line = String::from_utf8_lossy(&rest[..end]);
        let size = line.split(';').next().unwrap_or_default().trim();
        match usize::from_str_radix(size, 16) {
            Ok(0) => return Some(body),
            Ok(size) if size <= MOST - body.len() => {
                let (chunk, after) = rest[end + 2..].split_at_checked(size)?;
                body.extend_from_slice(chunk);
                rest = after.strip_prefix(b"\r\n")?;
            }
            _ => return Some(Vec::new()),
        }
    }
}
