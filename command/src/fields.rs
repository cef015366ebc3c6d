//! The fields of a frame or a report with their places, and the place of a refusal.

use lumbixet::{read_number, Refusal};

use crate::hex;
use crate::json::Object;
use crate::output::{Colour, Output};

/// A wire number that was read.
pub struct Field {
    pub name: &'static str,
    pub start: usize,
    pub end: usize,
    pub value: u64,
}

/// The fields from the start on, one behind the other, as far as the bytes go.
pub struct Walk<'a> {
    pub bytes: &'a [u8],
    pub fields: Vec<Field>,
    /// The place behind the last field.
    pub at: usize,
    /// The field in which the bytes end.
    pub cut: Option<&'static str>,
}

impl<'a> Walk<'a> {
    pub fn new(bytes: &'a [u8]) -> Walk<'a> {
        Walk { bytes, fields: Vec::new(), at: 0, cut: None }
    }

    /// The next field; `None` from the one on in which the bytes end.
    pub fn next(&mut self, name: &'static str) -> Option<u64> {
        if self.cut.is_some() {
            return None;
        }
        match read_number(&self.bytes[self.at..]) {
            Ok((value, rest)) => {
                let end = self.bytes.len() - rest.len();
                self.fields.push(Field { name, start: self.at, end, value });
                self.at = end;
                Some(value)
            }
            Err(_) => {
                self.cut = Some(name);
                None
            }
        }
    }

    /// Pairs of fields, so many or until the bytes end.
    pub fn pairs(&mut self, count: u64, first: &'static str, second: &'static str) {
        let mut left = count;
        while left > 0 && self.next(first).is_some() && self.next(second).is_some() {
            left -= 1;
        }
    }

    /// A row for each field: its place, its bytes, its name, and what it says.
    pub fn rows(&self, base: usize, mut says: impl FnMut(usize, &Field) -> String) -> Vec<Vec<String>> {
        let row = |(index, field): (usize, &Field)| {
            let bytes = hex::digits(&self.bytes[field.start..field.end], " ");
            vec![(base + field.start).to_string(), bytes, field.name.to_string(), says(index, field)]
        };
        self.fields.iter().enumerate().map(row).collect()
    }
}

/// A refusal and where it was given.
pub struct Fault {
    pub refusal: Refusal,
    pub place: usize,
    pub field: String,
}

impl Fault {
    /// The field that the refusal is about: the one in which the bytes end, or else the one with which the reader first gives
    /// the refusal, since readers go field by field and give the first fault.
    pub fn find(refusal: Refusal, walk: &Walk, refuses: impl Fn(&[u8]) -> bool) -> Fault {
        if let (Refusal::Ends, Some(field)) = (refusal, walk.cut) {
            return Fault { refusal, place: walk.at, field: field.to_string() };
        }
        let (mut enough, mut less) = (walk.bytes.len(), 0);
        while less < enough {
            let middle = (less + enough) / 2;
            if refuses(&walk.bytes[..middle]) {
                enough = middle;
            } else {
                less = middle + 1;
            }
        }
        match walk.fields.iter().find(|field| field.end == enough) {
            Some(field) => Fault { refusal, place: field.start, field: field.name.to_string() },
            None => Fault { refusal, place: enough.saturating_sub(1), field: "what follows".to_string() },
        }
    }

    pub fn put(&self, base: usize, what: &str, output: &mut Output) {
        let number = self.refusal.number();
        let refused = output.painted(Colour::Red, &format!("refused ({number}: {})", self.refusal));
        output.put(&format!("{what} {refused} at byte {}, {}\n", base + self.place, self.field));
    }

    pub fn object(&self, base: usize, object: Object) -> Object {
        object.result(self.refusal.number()).number("place", base + self.place).text("field", &self.field)
    }
}

/// Rows with their columns under each other, each row behind two blanks.
pub fn table(rows: &[Vec<String>]) -> String {
    let columns = rows.iter().map(Vec::len).max().unwrap_or(0);
    let width = |column: usize| rows.iter().filter_map(|row| row.get(column)).map(String::len).max().unwrap_or(0);
    let widths: Vec<usize> = (0..columns).map(width).collect();
    let line = |row: &Vec<String>| {
        let cells: Vec<String> = row.iter().zip(&widths).map(|(cell, width)| format!("{cell:<width$}")).collect();
        format!("  {}\n", cells.join("  ").trim_end())
    };
    rows.iter().map(line).collect()
}
