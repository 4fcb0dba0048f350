//! A journal, read: owned strings, an enum, a copy for each `=`, and no checks of how a line is spelled.

use crate::metric::{bad, number, pair, Metric, Value};
use std::collections::HashMap;
use std::hint::black_box;
use std::io::{self, Read};
use std::iter::Peekable;
use std::str::{FromStr, Split};

#[derive(Default)]
#[allow(dead_code)]
struct Setup {
    start: i64,
    inputs: Vec<Option<u32>>,
    aggregators: Vec<(String, [i64; 3], bool)>,
    outputs: Vec<(u32, u32)>,
}

#[allow(dead_code)]
struct Report {
    group: u64,
    input: u32,
    delivered: bool,
}

#[allow(dead_code)]
enum Entry {
    Gather { input: u32, moment: i64, numbers: [u32; 4], metrics: Vec<Metric>, group: Option<u64>, reports: Reports },
    Ended { input: u32 },
    Take { item: u64 },
    Removed { item: u64, reports: Reports },
    Route { item: u64, whole: Metric, verdict: String, aggs: Views, outs: Views, reports: Reports },
    Tick { moment: i64, made: Vec<Metric> },
    Stop { moment: i64, made: Vec<Metric> },
    Begin { output: u32, from: u64, to: u64 },
    Done { output: u32, ok: bool, reports: Reports },
}

type Views = Vec<Option<Metric>>;
type Reports = Vec<Report>;
type Words<'a> = Split<'a, char>;

#[derive(Default)]
struct Journal {
    setup: Setup,
    entries: Vec<Entry>,
    account: String,
}

struct Reader<'a> {
    lines: Peekable<Split<'a, char>>,
    journal: Journal,
    /// The entry that names each item, and its place there.
    items: Vec<(usize, usize)>,
    groups: HashMap<u64, u32>,
}

fn word<'a>(words: &mut Words<'a>) -> io::Result<&'a str> {
    words.next().ok_or_else(|| bad("word"))
}

fn value_of<T: FromStr>(words: &mut Words) -> io::Result<T> {
    number(word(words)?)
}

/// The text that a spelled one stands for.
fn plain(spelled: &str) -> io::Result<String> {
    let Some((front, rest)) = spelled.split_once('%') else { return Ok(spelled.to_string()) };
    let mut raw = front.as_bytes().to_vec();
    for part in rest.split('%') {
        let digits = part.get(..2).ok_or_else(|| bad("escape"))?;
        raw.push(u8::from_str_radix(digits, 16).map_err(|_| bad("escape"))?);
        raw.extend_from_slice(part[2..].as_bytes());
    }
    String::from_utf8(raw).map_err(|_| bad("text"))
}

fn value(text: &str) -> io::Result<Value> {
    let rest = text.get(1..).ok_or_else(|| bad("value"))?;
    match text.as_bytes()[0] {
        b'i' => Ok(Value::Int(number(rest)?)),
        b'u' => Ok(Value::Uint(number(rest)?)),
        b'f' => Ok(Value::Float(number(rest)?)),
        b'b' => Ok(Value::Bool(rest == "t")),
        b's' => Ok(Value::Text(plain(rest)?)),
        _ => Err(bad("value")),
    }
}

fn metric(text: &str) -> io::Result<Metric> {
    let mut parts = text.split('|');
    let mut head = word(&mut parts)?.split(';');
    let name = plain(word(&mut head)?)?;
    let mut tags = Vec::new();
    for tag in head {
        let (key, text) = pair(tag, '=')?;
        tags.push((plain(key)?, plain(text)?));
    }
    let mut fields = Vec::new();
    for field in word(&mut parts)?.split(';') {
        let (key, text) = pair(field, '=')?;
        fields.push((plain(key)?, value(text)?));
    }
    Ok(Metric { name, tags, fields, time: value_of(&mut parts)? })
}

fn view(text: &str, whole: &Metric) -> io::Result<Option<Metric>> {
    match text {
        "-" => Ok(None),
        "=" => Ok(Some(whole.clone())),
        _ => metric(text).map(Some),
    }
}

impl<'a> Reader<'a> {
    /// The words of the next line behind its first one, where that is this one.
    fn next_if(&mut self, first: &str) -> Option<Words<'a>> {
        let line = self.lines.next_if(|line| line.strip_prefix(first).is_some_and(|rest| rest.starts_with(' ')))?;
        Some(line[first.len() + 1..].split(' '))
    }

    fn setup(&mut self) -> io::Result<()> {
        if self.lines.next() != Some("journal 1") {
            return Err(bad("header"));
        }
        let mut words = self.next_if("start").ok_or_else(|| bad("start"))?;
        self.journal.setup.start = value_of(&mut words)?;
        while let Some(mut words) = self.next_if("input") {
            let max = if words.nth(1) == Some("tracked") { Some(value_of(&mut words)?) } else { None };
            self.journal.setup.inputs.push(max);
        }
        while let Some(mut words) = self.next_if("aggregator") {
            let kind = words.nth(1).ok_or_else(|| bad("kind"))?.to_string();
            let times = [value_of(&mut words)?, value_of(&mut words)?, value_of(&mut words)?];
            self.journal.setup.aggregators.push((kind, times, word(&mut words)? == "drop"));
        }
        while let Some(mut words) = self.next_if("output") {
            word(&mut words)?;
            self.journal.setup.outputs.push((value_of(&mut words)?, value_of(&mut words)?));
        }
        Ok(())
    }

    fn metrics(&mut self, count: usize) -> io::Result<Vec<Metric>> {
        let mut metrics = Vec::new();
        for place in 0..count {
            let mut words = self.next_if("m").ok_or_else(|| bad("metric"))?;
            metrics.push(metric(word(&mut words)?)?);
            self.items.push((self.journal.entries.len(), place));
        }
        Ok(metrics)
    }

    fn reports(&mut self) -> io::Result<Reports> {
        let mut reports = Vec::new();
        while let Some(mut words) = self.next_if("report") {
            let group = value_of(&mut words)?;
            let input = *self.groups.get(&group).ok_or_else(|| bad("group"))?;
            reports.push(Report { group, input, delivered: word(&mut words)? == "delivered" });
        }
        Ok(reports)
    }

    /// The metric of an item.
    fn item(&self, item: u64) -> io::Result<&Metric> {
        let &(entry, place) = self.items.get(item as usize).ok_or_else(|| bad("item"))?;
        match &self.journal.entries[entry] {
            Entry::Gather { metrics, .. } | Entry::Tick { made: metrics, .. } | Entry::Stop { made: metrics, .. } => {
                Ok(&metrics[place])
            }
            _ => Err(bad("item")),
        }
    }

    fn gather(&mut self, words: &mut Words) -> io::Result<Entry> {
        let (input, moment) = (value_of(words)?, value_of(words)?);
        let numbers = [value_of(words)?, value_of(words)?, value_of(words)?, value_of(words)?];
        let count = value_of(words)?;
        let group = match word(words)? {
            "-" => None,
            text => Some(number(text)?),
        };
        if let Some(group) = group {
            self.groups.insert(group, input);
        }
        let metrics = self.metrics(count)?;
        Ok(Entry::Gather { input, moment, numbers, metrics, group, reports: self.reports()? })
    }

    fn route(&mut self, words: &mut Words) -> io::Result<Entry> {
        let item = value_of(words)?;
        let whole = match word(words)? {
            "-" => return Ok(Entry::Removed { item, reports: self.reports()? }),
            "=" => self.item(item)?.clone(),
            text => metric(text)?,
        };
        let verdict = word(words)?.to_string();
        let (mut aggs, mut outs) = (Vec::new(), Vec::new());
        for text in words.by_ref().take_while(|&text| text != "/") {
            aggs.push(view(text, &whole)?);
        }
        for text in words {
            outs.push(view(text, &whole)?);
        }
        Ok(Entry::Route { item, whole, verdict, aggs, outs, reports: self.reports()? })
    }

    /// The entry that a line begins; none where it begins the account.
    fn entry(&mut self, line: &'a str) -> io::Result<Option<Entry>> {
        let mut words = line.split(' ');
        let first = word(&mut words)?;
        let words = &mut words;
        Ok(Some(match first {
            "gather" => self.gather(words)?,
            "ended" => Entry::Ended { input: value_of(words)? },
            "take" => Entry::Take { item: value_of(words)? },
            "route" => self.route(words)?,
            "begin" => Entry::Begin { output: value_of(words)?, from: value_of(words)?, to: value_of(words)? },
            "done" => Entry::Done { output: value_of(words)?, ok: word(words)? == "ok", reports: self.reports()? },
            "tick" | "stop" => {
                let (moment, count) = (value_of(words)?, value_of(words)?);
                let made = self.metrics(count)?;
                if first == "tick" { Entry::Tick { moment, made } } else { Entry::Stop { moment, made } }
            }
            _ => return Ok(None),
        }))
    }

    fn read(mut self) -> io::Result<Journal> {
        self.setup()?;
        while let Some(line) = self.lines.next() {
            if let Some(entry) = self.entry(line)? {
                self.journal.entries.push(entry);
            } else if line.starts_with("end ") {
                return Ok(self.journal);
            } else {
                self.journal.account.push_str(line);
                self.journal.account.push('\n');
            }
        }
        Err(bad("end"))
    }
}

/// Reads a journal, and prints how many of each thing it has.
pub fn count(mut input: impl Read) -> io::Result<()> {
    let mut text = String::new();
    input.read_to_string(&mut text)?;
    let lines = text.split('\n').peekable();
    let reader = Reader { lines, journal: Journal::default(), items: Vec::new(), groups: HashMap::new() };
    let journal = black_box(reader.read()?);
    let (mut items, mut views, mut reports) = (0, 0, 0);
    let plugins = journal.setup.aggregators.len() + journal.setup.outputs.len();
    for entry in &journal.entries {
        let (named, seen, told) = match entry {
            Entry::Gather { metrics, reports, .. } => (metrics.len(), 0, reports.len()),
            Entry::Tick { made, .. } | Entry::Stop { made, .. } => (made.len(), 0, 0),
            Entry::Removed { reports, .. } => (0, plugins, reports.len()),
            Entry::Route { aggs, outs, reports, .. } => (0, aggs.len() + outs.len(), reports.len()),
            Entry::Done { reports, .. } => (0, 0, reports.len()),
            _ => (0, 0, 0),
        };
        items += named;
        views += seen;
        reports += told;
    }
    let (inputs, aggregators) = (journal.setup.inputs.len(), journal.setup.aggregators.len());
    let (outputs, entries) = (journal.setup.outputs.len(), journal.entries.len());
    print!("inputs {inputs} aggregators {aggregators} outputs {outputs} entries {entries} ");
    println!("items {items} views {views} reports {reports}");
    Ok(())
}
