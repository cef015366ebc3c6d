//! The files that are written: never over an input or over what is no output of this command, and never half.

use std::ffi::{OsStr, OsString};
use std::fs::{self, File, Metadata, OpenOptions};
use std::io::{self, ErrorKind, Read, Write};
use std::os::unix::fs::MetadataExt;
use std::path::{Path, PathBuf};

use crate::input::{is_standard, said};
use crate::output::{descriptor, Failed};
use crate::system;

/// A file that was asked for: by which option, its name, and what such a file begins with.
pub struct Wanted<'a> {
    pub option: &'static str,
    pub name: &'a OsStr,
    pub beginning: &'static str,
}

/// A file by its device and inode, whatever it is called. Terminals and devices may be read and written at once.
type Identity = (u64, u64);

fn identity(about: io::Result<Metadata>) -> Option<Identity> {
    about.ok().filter(Metadata::is_file).map(|about| (about.dev(), about.ino()))
}

fn identity_of(name: &OsStr) -> Option<Identity> {
    identity(fs::metadata(name))
}

/// Whether both names will be one file, which need not be there yet. A device may be written twice.
fn same_place(a: &OsStr, b: &OsStr) -> bool {
    let place = |name: &OsStr| {
        let path = Path::new(name);
        let folder = path.parent().filter(|folder| !folder.as_os_str().is_empty()).unwrap_or(Path::new("."));
        Some((fs::canonicalize(folder).ok()?, path.file_name()?.to_os_string()))
    };
    match (fs::metadata(a), fs::metadata(b)) {
        (Ok(a), Ok(b)) => identity(Ok(a)).map_or(false, |file| Some(file) == identity(Ok(b))),
        (Err(_), Err(_)) => place(a).is_some() && place(a) == place(b),
        _ => false,
    }
}

/// Looks at all files before the first line is printed. Says why one of them may not be written.
pub fn look(inputs: &[OsString], wanted: &[Wanted]) -> Result<(), String> {
    let lines = identity(descriptor(system::OUTPUT).metadata());
    for input in inputs {
        let standard = is_standard(input);
        let file = if standard { identity(descriptor(system::INPUT).metadata()) } else { identity_of(input) };
        if file.is_some() && file == lines {
            return Err(format!("standard output is the file that is read: {}", said(input)));
        }
        let over = wanted.iter().find(|wanted| file.is_some() && file == identity_of(wanted.name));
        if let Some(Wanted { option, name, .. }) = over {
            return Err(format!("{option} {} would overwrite an input", said(name)));
        }
    }
    for (place, Wanted { option, name, beginning }) in wanted.iter().enumerate() {
        if identity_of(name).is_some() && identity_of(name) == lines {
            return Err(format!("{option} {} is standard output, too", said(name)));
        }
        if let Some(other) = wanted[..place].iter().find(|other| same_place(other.name, name)) {
            return Err(format!("{option} {} is the file of {}, too", said(name), other.option));
        }
        if !may_be_replaced(name, beginning) {
            return Err(format!("{option} {} is there already, and this command did not write it", said(name)));
        }
    }
    Ok(())
}

/// A file that is not there, or is empty, or begins as what is written there. What cannot be read is judged when it is written.
fn may_be_replaced(name: &OsStr, beginning: &str) -> bool {
    if identity_of(name).is_none() {
        return true;
    }
    let mut start = Vec::new();
    let read = File::open(name).and_then(|file| file.take(beginning.len() as u64).read_to_end(&mut start));
    read.is_err() || start.is_empty() || start == beginning.as_bytes()
}

/// Writes a whole file: aside, and in its place when all of it is on the disk. Where that fails, what was there before stays.
pub fn save(name: &OsStr, bytes: &[u8]) -> Result<(), Failed> {
    write(name, bytes).map_err(|reason| Failed { name: said(name), reason })
}

fn write(name: &OsStr, bytes: &[u8]) -> io::Result<()> {
    // a link stays, and the file behind it is replaced
    let path = fs::canonicalize(name).unwrap_or_else(|_| PathBuf::from(name));
    let there = fs::metadata(&path).ok();
    if there.as_ref().map_or(false, |about| !about.is_file()) {
        // a device takes the bytes as they come
        return OpenOptions::new().write(true).open(&path)?.write_all(bytes);
    }
    let (mut file, aside) = open_aside(&path)?;
    let written = file.write_all(bytes).and_then(|()| file.sync_all());
    let written = written.and_then(|()| there.map_or(Ok(()), |about| file.set_permissions(about.permissions())));
    let done = written.and_then(|()| fs::rename(&aside, &path));
    if done.is_err() {
        fs::remove_file(&aside).ok();
    }
    done
}

/// A new file in the same folder.
fn open_aside(path: &Path) -> io::Result<(File, PathBuf)> {
    let mut tries = 0;
    loop {
        let aside = path.with_file_name(format!(".lumbixet-{}-{tries}", std::process::id()));
        match OpenOptions::new().write(true).create_new(true).open(&aside) {
            Err(reason) if reason.kind() == ErrorKind::AlreadyExists && tries < 100 => tries += 1,
            opened => return opened.map(|file| (file, aside)),
        }
    }
}
