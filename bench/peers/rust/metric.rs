//! Metrics with owned strings, and what all readers share.

use std::io;

#[derive(Clone)]
pub enum Value {
    Int(i64),
    Uint(u64),
    Float(f64),
    Bool(bool),
    Text(String),
}

#[derive(Clone)]
pub struct Metric {
    pub name: String,
    pub tags: Vec<(String, String)>,
    pub fields: Vec<(String, Value)>,
    pub time: i64,
}

pub fn bad(what: &str) -> io::Error {
    io::Error::new(io::ErrorKind::InvalidData, what.to_string())
}

pub fn number<T: std::str::FromStr>(text: &str) -> io::Result<T> {
    text.parse().map_err(|_| bad("number"))
}

pub fn pair(text: &str, mark: char) -> io::Result<(&str, &str)> {
    text.split_once(mark).ok_or_else(|| bad("pair"))
}

/// The nanoseconds of a text that has seconds.
pub fn seconds(text: &str) -> io::Result<i64> {
    Ok((number::<f64>(text)? * 1e9) as i64)
}

/// Puts a tag, in the place of one of its key where there is one.
pub fn put_tag(tags: &mut Vec<(String, String)>, key: &str, value: &str) {
    match tags.iter_mut().find(|tag| tag.0 == key) {
        Some(tag) => tag.1 = value.to_string(),
        None => tags.push((key.to_string(), value.to_string())),
    }
}
