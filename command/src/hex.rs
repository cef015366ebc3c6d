//! Bytes as hexadecimal digits, as people type and paste them: `02 05`, `0205`, `02:05`, `0x02 0x05`.

/// The bytes that the digits stand for; `None` where the text is something else.
pub fn parse(text: &str) -> Option<Vec<u8>> {
    let mut bytes = Vec::new();
    for word in text.split(|letter: char| letter.is_whitespace() || letter == ':').filter(|word| !word.is_empty()) {
        let digits = word.strip_prefix("0x").or_else(|| word.strip_prefix("0X")).unwrap_or(word);
        let pair = |at: usize| digits.get(at..at + 2).and_then(|pair| u8::from_str_radix(pair, 16).ok());
        if digits.is_empty() || !digits.bytes().all(|digit| digit.is_ascii_hexdigit()) {
            return None;
        }
        for at in (0..digits.len()).step_by(2) {
            bytes.push(pair(at)?);
        }
    }
    Some(bytes).filter(|bytes| !bytes.is_empty())
}

/// The digits of bytes, with this between two bytes.
pub fn digits(bytes: &[u8], between: &str) -> String {
    let pairs: Vec<String> = bytes.iter().map(|byte| format!("{byte:02x}")).collect();
    pairs.join(between)
}
