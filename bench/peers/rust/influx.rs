//! Line protocol, read and written.

use crate::metric::{bad, number, pair, Metric, Value};
use std::io::{self, Write};

fn value(text: &str) -> io::Result<Value> {
    match text {
        "t" | "T" | "true" | "True" | "TRUE" => return Ok(Value::Bool(true)),
        "f" | "F" | "false" | "False" | "FALSE" => return Ok(Value::Bool(false)),
        _ => {}
    }
    if let Some(digits) = text.strip_suffix('i') {
        return Ok(Value::Int(number(digits)?));
    }
    if let Some(digits) = text.strip_suffix('u') {
        return Ok(Value::Uint(number(digits)?));
    }
    Ok(Value::Float(number(text)?))
}

/// Reads a line that holds no escapes and no texts in quotes.
pub fn parse(line: &str) -> io::Result<Metric> {
    let mut parts = line.split(' ');
    let mut head = parts.next().ok_or_else(|| bad("head"))?.split(',');
    let name = head.next().ok_or_else(|| bad("name"))?.to_string();
    let mut tags = Vec::new();
    for part in head {
        let (key, text) = pair(part, '=')?;
        tags.push((key.to_string(), text.to_string()));
    }
    tags.sort();
    let mut fields = Vec::new();
    for part in parts.next().ok_or_else(|| bad("fields"))?.split(',') {
        let (key, text) = pair(part, '=')?;
        fields.push((key.to_string(), value(text)?));
    }
    let time = number(parts.next().ok_or_else(|| bad("time"))?)?;
    Ok(Metric { name, tags, fields, time })
}

pub fn write_line(metric: &Metric, out: &mut impl Write) -> io::Result<()> {
    write!(out, "{}", metric.name)?;
    for (key, text) in &metric.tags {
        write!(out, ",{key}={text}")?;
    }
    let mut mark = ' ';
    for (key, value) in &metric.fields {
        match value {
            Value::Int(n) => write!(out, "{mark}{key}={n}i")?,
            Value::Uint(n) => write!(out, "{mark}{key}={n}u")?,
            Value::Float(n) => write!(out, "{mark}{key}={n}")?,
            Value::Bool(b) => write!(out, "{mark}{key}={b}")?,
            Value::Text(text) => write!(out, "{mark}{key}={text:?}")?,
        }
        mark = ',';
    }
    writeln!(out, " {}", metric.time)
}
