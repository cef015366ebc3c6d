//! The frame types of RFC 9000, section 12.4, and their names; `frame` reads only a few of them.

use lumbixet::{read_number, write_number};

pub const PADDING: u8 = 0x00;
pub const PING: u8 = 0x01;

/// From a type on up to a type, and the name.
const TYPES: [(u64, u64, &str); 23] = [
    (0x00, 0x00, "PADDING"),
    (0x01, 0x01, "PING"),
    (0x02, 0x03, "ACK"),
    (0x04, 0x04, "RESET_STREAM"),
    (0x05, 0x05, "STOP_SENDING"),
    (0x06, 0x06, "CRYPTO"),
    (0x07, 0x07, "NEW_TOKEN"),
    (0x08, 0x0f, "STREAM"),
    (0x10, 0x10, "MAX_DATA"),
    (0x11, 0x11, "MAX_STREAM_DATA"),
    (0x12, 0x13, "MAX_STREAMS"),
    (0x14, 0x14, "DATA_BLOCKED"),
    (0x15, 0x15, "STREAM_DATA_BLOCKED"),
    (0x16, 0x17, "STREAMS_BLOCKED"),
    (0x18, 0x18, "NEW_CONNECTION_ID"),
    (0x19, 0x19, "RETIRE_CONNECTION_ID"),
    (0x1a, 0x1a, "PATH_CHALLENGE"),
    (0x1b, 0x1b, "PATH_RESPONSE"),
    (0x1c, 0x1d, "CONNECTION_CLOSE"),
    (0x1e, 0x1e, "HANDSHAKE_DONE"),
    // RFC 9221
    (0x30, 0x31, "DATAGRAM"),
    // source document 004
    (0x1f, 0x1f, "IMMEDIATE_ACK"),
    (0xaf, 0xaf, "ACK_FREQUENCY"),
];

/// The name of the type with which the bytes begin, and whether it is in its shortest form.
pub fn of(bytes: &[u8]) -> Option<(u64, Option<&'static str>, bool)> {
    let (number, rest) = read_number(bytes).ok()?;
    let name = TYPES.iter().find(|(first, last, _)| (*first..=*last).contains(&number)).map(|(_, _, name)| *name);
    let mut room = [0; 8];
    let shortest = write_number(number, &mut room).map_or(false, |form| form.len() == bytes.len() - rest.len());
    Some((number, name, shortest))
}

/// Why a type was refused: which one it is.
pub fn words(bytes: &[u8]) -> String {
    match of(bytes) {
        Some((_, Some(name), true)) => format!("type: {name}, which is not read here"),
        Some((_, Some(name), false)) => format!("type: {name}, but not in its shortest form"),
        Some((number, None, _)) => format!("type: {number:#x}, which is none of RFC 9000"),
        None => "type".to_string(),
    }
}
