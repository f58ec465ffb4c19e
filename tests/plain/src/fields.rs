//! "Fields are read in file order: 4 if the bytes end inside a field, else its own fault."

use crate::field::{self, Serial};
use crate::number::{DIFFERS, FORM, SHORT};

/// The bytes from a place on, taken field by field.
pub struct Fields<'a> {
    file: &'a [u8],
    at: usize,
}

impl<'a> Fields<'a> {
    pub fn new(file: &'a [u8], at: usize) -> Self {
        Fields { file, at }
    }

    pub fn at(&self) -> usize {
        self.at
    }

    pub fn rest(&self) -> &'a [u8] {
        &self.file[self.at..]
    }

    /// "4 if the bytes end inside a field"
    pub fn take(&mut self, length: usize) -> Result<&'a [u8], u8> {
        let field = self.rest().get(..length).ok_or(SHORT)?;
        self.at += length;
        Ok(field)
    }

    fn array<const N: usize>(&mut self) -> Result<&'a [u8; N], u8> {
        let field = self.rest().first_chunk().ok_or(SHORT)?;
        self.at += N;
        Ok(field)
    }

    /// "label, LF, mark [..] differs"
    pub fn same(&mut self, text: &[u8]) -> Result<(), u8> {
        if self.take(text.len())? == text {
            Ok(())
        } else {
            Err(DIFFERS)
        }
    }

    pub fn lf(&mut self) -> Result<(), u8> {
        self.same(b"\n")
    }

    /// "listed word differs"
    pub fn word(&mut self, listed: &[&[u8; 3]]) -> Result<&'a [u8; 3], u8> {
        let word = self.array()?;
        if listed.contains(&word) {
            Ok(word)
        } else {
            Err(DIFFERS)
        }
    }

    pub fn count(&mut self, width: usize) -> Result<usize, u8> {
        field::count(self.take(width)?).ok_or(FORM)
    }

    pub fn text<const N: usize>(&mut self) -> Result<&'a [u8; N], u8> {
        let text = self.array()?;
        if field::is_text(text) {
            Ok(text)
        } else {
            Err(FORM)
        }
    }

    /// Answers the day number.
    pub fn date(&mut self) -> Result<u32, u8> {
        field::day(self.take(8)?).ok_or(FORM)
    }

    pub fn offset(&mut self) -> Result<i64, u8> {
        field::offset(self.take(16)?).ok_or(FORM)
    }

    pub fn serial(&mut self) -> Result<&'a Serial, u8> {
        let serial = self.array()?;
        field::serial_day(serial).map(|_| serial).ok_or(FORM)
    }

    /// A label, an I12 and no LF yet: "A length is tested [..] before the LF".
    pub fn length(&mut self, label: &[u8]) -> Result<usize, u8> {
        self.same(label)?;
        self.count(12)
    }

    /// A label, a field and LF.
    pub fn line<T>(&mut self, label: &[u8], field: impl FnOnce(&mut Self) -> Result<T, u8>) -> Result<T, u8> {
        self.same(label)?;
        let value = field(self)?;
        self.lf()?;
        Ok(value)
    }
}
