//! A plain program with owned strings: reads metrics a thousand a batch, writes them back, and writes a journal
//! beside them: main pipe IN OUT JOURNAL [FORMAT [TEMPLATE..]]. FORMAT is influx, statsd, graphite or openmetrics;
//! lines of StatsD are written as line protocol, all others in their own format. And the bound, which copies line by
//! line: main copy IN OUT. And main journal, which reads a journal from standard input and counts what it has.

mod graphite;
mod influx;
mod journal;
mod journal_reading;
mod metric;
mod openmetrics;
mod statsd;

use graphite::Template;
use metric::{bad, Metric};
use std::env;
use std::fs::File;
use std::io::{self, BufRead, BufReader, BufWriter, Write};
use std::process::exit;
use std::time::{SystemTime, UNIX_EPOCH};

const BATCH: usize = 1000;

enum Format {
    Influx,
    Statsd,
    Graphite(Vec<Template>),
    Openmetrics,
}

impl Format {
    fn of(words: &[&str]) -> io::Result<Format> {
        match words {
            [] | ["influx"] => Ok(Format::Influx),
            ["statsd"] => Ok(Format::Statsd),
            ["graphite", templates @ ..] => {
                let templates: io::Result<Vec<Template>> = templates.iter().map(|text| Template::parse(text)).collect();
                Ok(Format::Graphite(templates?))
            }
            ["openmetrics"] => Ok(Format::Openmetrics),
            _ => Err(bad("format")),
        }
    }

    fn read(&self, line: &str, moment: i64, into: &mut Vec<Metric>) -> io::Result<()> {
        match self {
            Format::Influx => into.push(influx::parse(line)?),
            Format::Statsd => statsd::parse(line, moment, into)?,
            Format::Graphite(templates) => into.push(graphite::parse(line, templates, moment)?),
            Format::Openmetrics => into.extend(openmetrics::parse(line, moment)?),
        }
        Ok(())
    }

    fn write(&self, metrics: &[Metric], out: &mut impl Write) -> io::Result<()> {
        match self {
            Format::Influx | Format::Statsd => metrics.iter().try_for_each(|metric| influx::write_line(metric, out)),
            Format::Graphite(_) => metrics.iter().try_for_each(|metric| graphite::write_lines(metric, out)),
            Format::Openmetrics => openmetrics::write_batch(metrics, out),
        }
    }
}

fn moment() -> i64 {
    SystemTime::now().duration_since(UNIX_EPOCH).map_or(0, |since| since.as_nanos() as i64)
}

fn pipe(input: &str, output: &str, journal: &str, format: &Format) -> io::Result<()> {
    let mut input = BufReader::with_capacity(1 << 16, File::open(input)?);
    let mut output = BufWriter::with_capacity(1 << 16, File::create(output)?);
    let mut journal = BufWriter::with_capacity(1 << 16, File::create(journal)?);
    writeln!(journal, "journal 1\nstart 0\ninput 0 plain\noutput 0 {BATCH} 10000")?;
    let mut line = String::new();
    let mut from = 0;
    loop {
        let moment = moment();
        let mut metrics = Vec::with_capacity(BATCH);
        while metrics.len() < BATCH {
            line.clear();
            if input.read_line(&mut line)? == 0 {
                break;
            }
            format.read(line.trim_end_matches('\n'), moment, &mut metrics)?;
        }
        if metrics.is_empty() {
            break;
        }
        format.write(&metrics, &mut output)?;
        journal::write_journal(&metrics, from, &mut journal)?;
        from += metrics.len();
    }
    output.flush()?;
    journal.flush()
}

fn copy(input: &str, output: &str) -> io::Result<()> {
    let mut input = BufReader::with_capacity(1 << 16, File::open(input)?);
    let mut output = BufWriter::with_capacity(1 << 16, File::create(output)?);
    let mut line = Vec::new();
    while input.read_until(b'\n', &mut line)? != 0 {
        output.write_all(&line)?;
        line.clear();
    }
    output.flush()
}

fn main() {
    let words: Vec<String> = env::args().skip(1).collect();
    let words: Vec<&str> = words.iter().map(String::as_str).collect();
    let done = match words[..] {
        ["pipe", input, output, journal, ref format @ ..] => {
            Format::of(format).and_then(|format| pipe(input, output, journal, &format))
        }
        ["copy", input, output] => copy(input, output),
        ["journal"] => journal_reading::count(io::stdin().lock()),
        _ => Err(bad("main pipe IN OUT JOURNAL [FORMAT [TEMPLATE..]], main copy IN OUT, or main journal")),
    };
    if let Err(fault) = done {
        eprintln!("{fault}");
        exit(1);
    }
}
