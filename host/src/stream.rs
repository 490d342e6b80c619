//! A stream as people want to see it: where its events begin, and which element one is.

use std::fmt::Write;

/// The events of a stream, as the reader parts them: each runs to the next line that begins `event=`, or to the end.
///
/// ```
/// let events: Vec<&[u8]> = host::stream::events(b"event=open\nname=a\nevent=end\nname=a\n").collect();
/// assert_eq!(events, [&b"event=open\nname=a\n"[..], b"event=end\nname=a\n"]);
/// ```
pub fn events(stream: &[u8]) -> impl Iterator<Item = &[u8]> {
    let mut rest = stream;
    std::iter::from_fn(move || {
        let (event, behind) = rest.split_at(event_end(rest));
        rest = behind;
        (!event.is_empty()).then_some(event)
    })
}

/// Where the first event ends: at the first later line that begins an event.
fn event_end(stream: &[u8]) -> usize {
    let begins = b"\nevent=";
    stream.windows(begins.len()).position(|bytes| bytes == begins).map_or(stream.len(), |place| place + 1)
}

/// The element of an event, as it is written on its first `name=` line, in an event out of form too.
///
/// ```
/// assert_eq!(host::stream::element(b"event=sideways\nname=state\n"), Some(&b"state"[..]));
/// ```
pub fn element(event: &[u8]) -> Option<&[u8]> {
    event.split(|byte| *byte == b'\n').find_map(|line| line.strip_prefix(b"name="))
}

/// Bytes for a person's eyes: whatever is not a visible letter or a space of ASCII stands as `\x` and two digits, so that no
/// terminal acts on it.
///
/// ```
/// assert_eq!(host::stream::visible(b"a b\x1b\n"), r"a b\x1b\x0a");
/// ```
pub fn visible(bytes: &[u8]) -> String {
    let mut text = String::with_capacity(bytes.len());
    for byte in bytes {
        match byte {
            b' '..=b'~' => text.push(char::from(*byte)),
            _ => drop(write!(text, "\\x{byte:02x}")),
        }
    }
    text
}
