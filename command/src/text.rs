//! Numbers and bytes as text.

/// A number in decimal that counts up from 0. Its digits stand at the start.
pub struct Counter {
    digits: [u8; 24],
    length: usize,
}

impl Counter {
    pub fn new() -> Counter {
        Counter { digits: [b'0'; 24], length: 1 }
    }

    #[inline]
    fn up(&mut self) {
        for digit in self.digits[..self.length].iter_mut().rev() {
            if *digit != b'9' {
                *digit += 1;
                return;
            }
            *digit = b'0';
        }
        // 99 becomes 100
        self.digits[0] = b'1';
        self.length += 1;
    }

    /// Puts the number, a blank, the result, a blank, the cause and a line end, and counts up.
    #[inline]
    pub fn put_line(&mut self, lines: &mut Vec<u8>, result: u64, cause: u64) {
        let start = lines.len();
        // a copy of a fixed length takes no call
        lines.extend_from_slice(&self.digits);
        lines.truncate(start + self.length);
        if result < 10 && cause < 10 {
            lines.extend_from_slice(&[b' ', b'0' + result as u8, b' ', b'0' + cause as u8, b'\n']);
        } else {
            lines.extend_from_slice(format!(" {result} {cause}\n").as_bytes());
        }
        self.up();
    }
}

/// A number with a comma between each three digits.
pub fn grouped(number: impl ToString) -> String {
    let text = number.to_string();
    let (sign, digits) = text.strip_prefix('-').map_or(("", &text[..]), |digits| ("-", digits));
    let mut grouped = sign.to_string();
    for (place, digit) in digits.chars().enumerate() {
        if place > 0 && (digits.len() - place) % 3 == 0 {
            grouped.push(',');
        }
        grouped.push(digit);
    }
    grouped
}

/// So many of a thing; an `s` makes the plural.
pub fn counted(number: impl ToString, thing: &str) -> String {
    let number = number.to_string();
    format!("{} {thing}{}", grouped(&number), if number == "1" { "" } else { "s" })
}

/// A share in brackets, ` (2.5 %)`, to a tenth; nothing of nothing. Neither none nor all is said of a part that is not.
pub fn percent(part: u64, whole: u64) -> String {
    if whole == 0 || part > whole {
        return String::new();
    }
    let tenths = (u128::from(part) * 2_000 + u128::from(whole)) / (2 * u128::from(whole));
    match tenths {
        0 if part > 0 => " (below 0.1 %)".to_string(),
        1000 if part < whole => " (above 99.9 %)".to_string(),
        _ => format!(" ({}.{} %)", tenths / 10, tenths % 10),
    }
}
