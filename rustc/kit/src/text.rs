//! `String`, each of whose calls that may allocate returns a `Result`.

use crate::alloc::{AllocError, Global};
use crate::vec::Vec;
use ::std::fmt;
use ::std::ops::{Deref, DerefMut};

#[derive(PartialEq, Eq, PartialOrd, Ord)]
pub struct String(::std::string::String);

impl String {
    pub fn new(_alloc: Global) -> String {
        String(::std::string::String::new())
    }

    pub fn from_str(alloc: Global, text: &str) -> Result<String, AllocError> {
        let mut made = String::new(alloc);
        made.push_str(text)?;
        Ok(made)
    }

    pub fn from_utf8(bytes: Vec<u8>) -> Result<String, ::std::string::FromUtf8Error> {
        ::std::string::String::from_utf8(bytes.0).map(String)
    }

    pub fn formatted(alloc: Global, parts: fmt::Arguments<'_>) -> Result<String, AllocError> {
        let mut made = String::new(alloc);
        made.write_fmt(parts)?;
        Ok(made)
    }

    /// What `write!` calls. It fails only if an allocation is refused.
    pub fn write_fmt(&mut self, parts: fmt::Arguments<'_>) -> Result<(), AllocError> {
        fmt::Write::write_fmt(self, parts).map_err(|_| AllocError)
    }

    pub fn push_str(&mut self, text: &str) -> Result<(), AllocError> {
        self.0.try_reserve(text.len()).map_err(|_| AllocError)?;
        self.0.push_str(text);
        Ok(())
    }

    pub fn push(&mut self, letter: char) -> Result<(), AllocError> {
        self.push_str(letter.encode_utf8(&mut [0; 4]))
    }

    pub fn as_str(&self) -> &str {
        &self.0
    }

    pub fn into_bytes(self) -> Vec<u8> {
        Vec(self.0.into_bytes())
    }
}

impl Deref for String {
    type Target = str;

    fn deref(&self) -> &str {
        &self.0
    }
}

impl DerefMut for String {
    fn deref_mut(&mut self) -> &mut str {
        &mut self.0
    }
}

impl fmt::Write for String {
    fn write_str(&mut self, text: &str) -> fmt::Result {
        self.push_str(text).map_err(|_| fmt::Error)
    }
}

impl fmt::Display for String {
    fn fmt(&self, f: &mut fmt::Formatter<'_>) -> fmt::Result {
        self.0.fmt(f)
    }
}

impl fmt::Debug for String {
    fn fmt(&self, f: &mut fmt::Formatter<'_>) -> fmt::Result {
        self.0.fmt(f)
    }
}

impl From<String> for ::std::string::String {
    fn from(text: String) -> Self {
        text.0
    }
}

/// Joins the texts of an array.
pub trait Concat {
    fn concat(self, alloc: Global) -> Result<String, AllocError>;
}

impl<const N: usize> Concat for [&str; N] {
    fn concat(self, alloc: Global) -> Result<String, AllocError> {
        let mut made = String::new(alloc);
        for text in self {
            made.push_str(text)?;
        }
        Ok(made)
    }
}
