//! Expositions of OpenMetrics, read and written.

use crate::metric::{bad, number, put_tag, seconds, Metric, Value};
use std::collections::hash_map::Entry;
use std::collections::{BTreeMap, HashMap};
use std::io::{self, Write};

/// Reads the labels behind a brace; what stands behind them.
fn labels<'a>(mut rest: &'a str, tags: &mut Vec<(String, String)>) -> io::Result<&'a str> {
    loop {
        if let Some(behind) = rest.strip_prefix('}') {
            return Ok(behind);
        }
        let (key, behind) = rest.split_once("=\"").ok_or_else(|| bad("label"))?;
        let mut value = String::new();
        let mut letters = behind.char_indices();
        loop {
            match letters.next().ok_or_else(|| bad("label"))? {
                (at, '"') => {
                    rest = behind[at + 1..].trim_start_matches(',');
                    break;
                }
                (_, '\\') => match letters.next().ok_or_else(|| bad("label"))?.1 {
                    'n' => value.push('\n'),
                    letter => value.push(letter),
                },
                (_, letter) => value.push(letter),
            }
        }
        put_tag(tags, key, &value);
    }
}

/// Reads a line of an exposition: a metric where it is a sample.
pub fn parse(line: &str, moment: i64) -> io::Result<Option<Metric>> {
    if line.starts_with('#') {
        return Ok(None);
    }
    let end = line.find(['{', ' ']).ok_or_else(|| bad("sample"))?;
    let (name, mut rest) = line.split_at(end);
    let mut tags = Vec::new();
    if let Some(behind) = rest.strip_prefix('{') {
        rest = labels(behind, &mut tags)?;
    }
    tags.sort();
    let mut words = rest.split(' ').skip(1);
    let value = Value::Float(number(words.next().ok_or_else(|| bad("number"))?)?);
    let time = match words.next() {
        Some(text) if text != "#" => seconds(text)?,
        _ => moment,
    };
    Ok(Some(Metric { name: name.to_string(), tags, fields: vec![("value".to_string(), value)], time }))
}

/// A name in which other bytes than letters, digits, `_` and perhaps `:` are written as `_`.
fn cleaned(text: &str, with_colons: bool) -> String {
    let is_kept = |b: u8| b.is_ascii_alphanumeric() || b == b'_' || with_colons && b == b':';
    let name: String = text.bytes().map(|b| if is_kept(b) { char::from(b) } else { '_' }).collect();
    if name.starts_with(|letter: char| letter.is_ascii_digit()) { format!("_{name}") } else { name }
}

/// The labels as they are written.
fn braces(metric: &Metric) -> String {
    let labels: Vec<String> = metric
        .tags
        .iter()
        .map(|(key, value)| {
            let value = value.replace('\\', "\\\\").replace('"', "\\\"").replace('\n', "\\n");
            format!("{}=\"{value}\"", cleaned(key, false))
        })
        .collect();
    if labels.is_empty() { String::new() } else { format!("{{{}}}", labels.join(",")) }
}

/// The samples of one name: their labels in the order in which they came, and the numbers by time.
#[derive(Default)]
struct Family {
    places: HashMap<String, usize>,
    series: Vec<(String, BTreeMap<i64, String>)>,
}

/// Families in the order of their first samples.
fn families(metrics: &[Metric]) -> Vec<(String, Family)> {
    let mut places: HashMap<String, usize> = HashMap::new();
    let mut families: Vec<(String, Family)> = Vec::new();
    for metric in metrics {
        for (key, value) in &metric.fields {
            let number = match value {
                Value::Int(n) => n.to_string(),
                Value::Uint(n) => n.to_string(),
                Value::Float(n) => n.to_string(),
                Value::Bool(b) => u8::from(*b).to_string(),
                Value::Text(_) => continue,
            };
            let whole = if key == "value" { metric.name.clone() } else { format!("{}_{key}", metric.name) };
            let name = cleaned(&whole, true);
            let place = *places.entry(name.clone()).or_insert(families.len());
            if place == families.len() {
                families.push((name, Family::default()));
            }
            let family = &mut families[place].1;
            let place = match family.places.entry(braces(metric)) {
                Entry::Occupied(found) => *found.get(),
                Entry::Vacant(free) => {
                    family.series.push((free.key().clone(), BTreeMap::new()));
                    *free.insert(family.series.len() - 1)
                }
            };
            family.series[place].1.insert(metric.time, number);
        }
    }
    families
}

/// Writes the exposition of a batch.
pub fn write_batch(metrics: &[Metric], out: &mut impl Write) -> io::Result<()> {
    for (name, family) in families(metrics) {
        writeln!(out, "# TYPE {name} unknown")?;
        for (labels, samples) in &family.series {
            for (time, number) in samples {
                let (second, rest) = (time.div_euclid(1_000_000_000), time.rem_euclid(1_000_000_000));
                if rest == 0 {
                    writeln!(out, "{name}{labels} {number} {second}")?;
                } else {
                    writeln!(out, "{name}{labels} {number} {}", *time as f64 / 1e9)?;
                }
            }
        }
    }
    writeln!(out, "# EOF")
}
