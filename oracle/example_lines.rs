//! What the examples share: a line for each, and bytes as the papers write them.

/// How many examples differ so far.
#[derive(Default)]
pub struct Examples {
    pub different: usize,
}

impl Examples {
    pub fn check<T: PartialEq + std::fmt::Debug>(&mut self, name: &str, found: T, wanted: T) {
        if found == wanted {
            println!("ok         {name}");
        } else {
            println!("DIFFERENT  {name}: found {found:?}, wanted {wanted:?}");
            self.different += 1;
        }
    }
}

/// Bytes as the papers write them.
pub fn hex(text: &str) -> Vec<u8> {
    text.split_whitespace().map(|byte| u8::from_str_radix(byte, 16).expect("two hexadecimal digits")).collect()
}
