//! The version of the archive that is linked, and that it is the one this crate was written for.

extern "C" {
    fn lumbixet_version() -> u32;
    static lumbixet_archive_is_of_version_0_11: u8;
}

/// Structs may change with the first two numbers of a version: an archive of another one does not have this name, and the program
/// does not link.
#[used]
static ARCHIVE: &u8 = unsafe { &lumbixet_archive_is_of_version_0_11 };

/// The archive's version: 10000 times the first number, 100 times the second, and the third.
#[must_use]
pub fn version() -> u32 {
    unsafe { lumbixet_version() }
}
