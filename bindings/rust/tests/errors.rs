//! A refusal goes into a boxed error by `?`. Built with the feature `std`, which is there by default.

use lumbixet::{Micros, Millis, Receiver};
use std::error::Error;

fn opened(maximum: u64) -> Result<Receiver, Box<dyn Error>> {
    Ok(Receiver::open(1, 1, Millis(maximum), Micros(1000))?)
}

#[test]
fn a_refusal_is_an_error() {
    assert!(opened(25).is_ok());
    assert_eq!(opened(16384).unwrap_err().to_string(), "a delay breaks the delay rule");
}
