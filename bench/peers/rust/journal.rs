//! A journal beside what is written, with the entries and metrics of ours.

use crate::metric::{Metric, Value};
use std::io::{self, Write};

/// A name, key or text of the journal: each byte but some is written as two hexadecimal digits.
fn write_name(text: &str, out: &mut impl Write) -> io::Result<()> {
    let is_plain = |b: u8| b.is_ascii_alphanumeric() || b"_.-:".contains(&b);
    if text.bytes().all(is_plain) {
        return out.write_all(text.as_bytes());
    }
    for b in text.bytes() {
        if is_plain(b) {
            out.write_all(&[b])?;
        } else {
            write!(out, "%{b:02X}")?;
        }
    }
    Ok(())
}

fn write_metric(metric: &Metric, out: &mut impl Write) -> io::Result<()> {
    write!(out, "m ")?;
    write_name(&metric.name, out)?;
    for (key, text) in &metric.tags {
        write!(out, ";")?;
        write_name(key, out)?;
        write!(out, "=")?;
        write_name(text, out)?;
    }
    let mut mark = '|';
    for (key, value) in &metric.fields {
        write!(out, "{mark}")?;
        mark = ';';
        write_name(key, out)?;
        match value {
            Value::Int(n) => write!(out, "=i{n}")?,
            Value::Uint(n) => write!(out, "=u{n}")?,
            Value::Float(n) => write!(out, "=f{n}")?,
            Value::Bool(b) => write!(out, "=b{}", if *b { 't' } else { 'f' })?,
            Value::Text(text) => {
                write!(out, "=s")?;
                write_name(text, out)?;
            }
        }
    }
    writeln!(out, "|{}", metric.time)
}

/// The entries of a round: what was gathered, taken, routed and written.
pub fn write_journal(metrics: &[Metric], from: usize, out: &mut impl Write) -> io::Result<()> {
    let count = metrics.len();
    writeln!(out, "gather 0 0 {count} 0 0 0 {count} -")?;
    for metric in metrics {
        write_metric(metric, out)?;
    }
    for item in from..from + count {
        writeln!(out, "take {item}")?;
        writeln!(out, "route {item} = passes / =")?;
    }
    writeln!(out, "begin 0 {from} {}", from + count)?;
    writeln!(out, "done 0 ok")
}
