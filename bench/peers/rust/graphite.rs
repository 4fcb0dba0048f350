//! Lines of Graphite, read by templates and written.

use crate::metric::{bad, number, pair, put_tag, seconds, Metric, Value};
use std::io::{self, Write};

pub struct Template {
    filter: Vec<String>,
    parts: Vec<String>,
    tags: Vec<(String, String)>,
}

impl Template {
    pub fn parse(text: &str) -> io::Result<Template> {
        let mut words: Vec<&str> = text.split(' ').collect();
        let mut tags = Vec::new();
        if words.last().is_some_and(|word| word.contains('=')) {
            for tag in words.pop().unwrap_or_default().split(',') {
                let (key, value) = pair(tag, '=')?;
                put_tag(&mut tags, key, value);
            }
        }
        let cut = |word: &str| word.split('.').map(str::to_string).collect();
        match words[..] {
            [parts] => Ok(Template { filter: Vec::new(), parts: cut(parts), tags }),
            [filter, parts] => Ok(Template { filter: cut(filter), parts: cut(parts), tags }),
            _ => Err(bad("template")),
        }
    }

    fn matches(&self, segments: &[&str]) -> bool {
        self.filter.len() <= segments.len()
            && self.filter.iter().zip(segments).all(|(word, segment)| word == "*" || word == segment)
    }

    /// The name, the field's key and the tags that it makes of segments.
    fn apply(&self, segments: &[&str]) -> (String, String, Vec<(String, String)>) {
        let (mut name, mut field, mut found): (Vec<&str>, Vec<&str>, Vec<(&str, Vec<&str>)>) = Default::default();
        for (at, part) in self.parts.iter().enumerate().take(segments.len()) {
            match part.as_str() {
                "measurement" => name.push(segments[at]),
                "measurement*" => name.extend(&segments[at..]),
                "field" => field.push(segments[at]),
                "field*" => field.extend(&segments[at..]),
                "" => {}
                key => match found.iter_mut().find(|tag| tag.0 == key) {
                    Some(tag) => tag.1.push(segments[at]),
                    None => found.push((key, vec![segments[at]])),
                },
            }
        }
        let mut tags = self.tags.clone();
        for (key, values) in found {
            put_tag(&mut tags, key, &values.join("."));
        }
        let name = if name.is_empty() { segments.join(".") } else { name.join(".") };
        let field = if field.is_empty() { "value".to_string() } else { field.join(".") };
        (name, field, tags)
    }
}

/// Reads a line by the first template that matches.
pub fn parse(line: &str, templates: &[Template], moment: i64) -> io::Result<Metric> {
    let words: Vec<&str> = line.split(' ').filter(|word| !word.is_empty()).collect();
    let (path, value, time) = match words[..] {
        [path, value] => (path, value, moment),
        [path, value, time] => (path, value, seconds(time)?),
        _ => return Err(bad("words")),
    };
    let mut parts = path.split(';');
    let segments: Vec<&str> = parts.next().unwrap_or_default().split('.').collect();
    let (name, field, mut tags) = match templates.iter().find(|template| template.matches(&segments)) {
        Some(template) => template.apply(&segments),
        None => (segments.join("."), "value".to_string(), Vec::new()),
    };
    for tag in parts {
        let (key, value) = pair(tag, '=')?;
        put_tag(&mut tags, key, value);
    }
    tags.sort();
    Ok(Metric { name, tags, fields: vec![(field, Value::Float(number(value)?))], time })
}

/// A part of a path, in which other bytes than letters, digits and some marks are written as `_`.
fn cleaned(text: &str, marks: &[u8]) -> String {
    text.bytes().map(|b| if b.is_ascii_alphanumeric() || marks.contains(&b) { char::from(b) } else { '_' }).collect()
}

/// Writes a line for each field that is no text.
pub fn write_lines(metric: &Metric, out: &mut impl Write) -> io::Result<()> {
    let mut path: Vec<String> = Vec::new();
    for (key, value) in &metric.tags {
        let place = if key == "host" { 0 } else { path.len() };
        path.insert(place, cleaned(value, b"_-"));
    }
    path.push(cleaned(&metric.name, b"_-."));
    let path = path.join(".");
    for (key, value) in &metric.fields {
        let number = match value {
            Value::Int(n) => n.to_string(),
            Value::Uint(n) => n.to_string(),
            Value::Float(n) => n.to_string(),
            Value::Bool(b) => u8::from(*b).to_string(),
            Value::Text(_) => continue,
        };
        let seconds = metric.time.div_euclid(1_000_000_000);
        if key == "value" {
            writeln!(out, "{path} {number} {seconds}")?;
        } else {
            writeln!(out, "{path}.{} {number} {seconds}", cleaned(key, b"_-."))?;
        }
    }
    Ok(())
}
