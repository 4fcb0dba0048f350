//! Lines of StatsD, read.

use crate::metric::{bad, number, pair, put_tag, Metric, Value};
use std::io;

/// What a part says.
pub enum Change<'a> {
    Counter(f64),
    Level(f64),
    Delta(f64),
    Timing(f64),
    Member(&'a str),
}

impl Change<'_> {
    /// The tag of its type.
    pub fn kind(&self) -> &'static str {
        match self {
            Change::Counter(_) => "counter",
            Change::Level(_) | Change::Delta(_) => "gauge",
            Change::Timing(_) => "timing",
            Change::Member(_) => "set",
        }
    }

    fn field(&self) -> (String, Value) {
        match self {
            Change::Delta(value) => ("delta".to_string(), Value::Float(*value)),
            Change::Counter(value) | Change::Level(value) | Change::Timing(value) => ("value".to_string(), Value::Float(*value)),
            Change::Member(text) => ("member".to_string(), Value::Text(text.to_string())),
        }
    }
}

/// Reads a part `value|type` or `value|type|@rate`.
pub fn change(text: &str) -> io::Result<Change<'_>> {
    let (value, rest) = pair(text, '|')?;
    let (kind, rate) = match rest.split_once("|@") {
        Some((kind, rate)) => (kind, number(rate)?),
        None => (rest, 1.0),
    };
    match kind {
        "c" => Ok(Change::Counter(number::<f64>(value)? / rate)),
        "g" if value.starts_with(['+', '-']) => Ok(Change::Delta(number(value)?)),
        "g" => Ok(Change::Level(number(value)?)),
        "ms" | "h" => Ok(Change::Timing(number(value)?)),
        "s" => Ok(Change::Member(value)),
        _ => Err(bad("type")),
    }
}

/// The name of a line, its tags, and its parts with colons between them.
pub fn split(line: &str) -> io::Result<(&str, Vec<(String, String)>, &str)> {
    let (head, rest) = pair(line, ':')?;
    let (parts, behind) = rest.split_once("|#").unwrap_or((rest, ""));
    let mut head = head.split(',');
    let name = head.next().ok_or_else(|| bad("name"))?;
    let mut tags = Vec::new();
    for tag in head {
        let (key, value) = pair(tag, '=')?;
        put_tag(&mut tags, key, value);
    }
    for tag in behind.split(',').filter(|tag| !tag.is_empty()) {
        let (key, value) = tag.split_once(':').unwrap_or((tag, "true"));
        put_tag(&mut tags, key, value);
    }
    Ok((name, tags, parts))
}

/// Its tags with that of a type, in order.
pub fn tags_with(tags: &[(String, String)], kind: &str) -> Vec<(String, String)> {
    let mut tags = tags.to_vec();
    put_tag(&mut tags, "metric_type", kind);
    tags.sort();
    tags
}

/// Reads a line, which has a metric for each of its parts.
pub fn parse(line: &str, moment: i64, into: &mut Vec<Metric>) -> io::Result<()> {
    let (name, tags, parts) = split(line)?;
    for text in parts.split(':') {
        let part = change(text)?;
        let tags = tags_with(&tags, part.kind());
        into.push(Metric { name: name.to_string(), tags, fields: vec![part.field()], time: moment });
    }
    Ok(())
}
