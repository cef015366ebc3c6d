//! What the system is asked for beside files: the standard descriptors, terminals, and broken pipes.

extern "C" {
    fn isatty(descriptor: i32) -> i32;
    fn signal(number: i32, handler: usize) -> usize;
}

pub const INPUT: i32 = 0;
pub const OUTPUT: i32 = 1;
pub const ERRORS: i32 = 2;

const BROKEN_PIPE: i32 = 13;
const DEFAULT: usize = 0;

/// A pipe that nobody reads any more ends the command as it ends other tools.
pub fn let_broken_pipes_end_it() {
    unsafe { signal(BROKEN_PIPE, DEFAULT) };
}

pub fn is_terminal(descriptor: i32) -> bool {
    unsafe { isatty(descriptor) == 1 }
}
