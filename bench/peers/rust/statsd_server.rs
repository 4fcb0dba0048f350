//! A plain StatsD server: statsd_server ADDRESS PACKETS QUIETS OUT JOURNAL takes packets at the address, so many a group, or
//! fewer where none comes for 10 milliseconds, and writes what it folds of each group as line protocol, with a journal
//! beside it. It ends when none came so many times in succession. No number is checked for its range.

mod influx;
mod journal;
mod metric;
mod statsd;

use metric::{bad, number, Metric, Value};
use statsd::Change;
use std::collections::{HashMap, HashSet};
use std::env;
use std::ffi::c_void;
use std::fs::File;
use std::io::{self, BufWriter, ErrorKind, Write};
use std::net::UdpSocket;
use std::os::fd::AsRawFd;
use std::process::exit;
use std::time::{Duration, SystemTime, UNIX_EPOCH};

const QUIET: Duration = Duration::from_millis(10);
const RECEIVE_BUFFER: i32 = 8 << 20;
// Linux's numbers.
const SOL_SOCKET: i32 = 1;
const SO_RCVBUF: i32 = 8;

extern "C" {
    fn setsockopt(socket: i32, level: i32, name: i32, value: *const c_void, length: u32) -> i32;
}

/// What a group has of a series: of a gauge `sum` is what it stands at.
struct Series {
    name: String,
    tags: Vec<(String, String)>,
    kind: &'static str,
    count: u64,
    lower: f64,
    upper: f64,
    sum: f64,
    members: HashSet<String>,
}

impl Series {
    fn add(&mut self, value: f64) {
        self.count += 1;
        self.lower = self.lower.min(value);
        self.upper = self.upper.max(value);
        self.sum += value;
    }

    fn fields(&self) -> Vec<(String, Value)> {
        let named = |key: &str, value| (key.to_string(), value);
        match self.kind {
            "timing" => vec![
                named("count", Value::Uint(self.count)),
                named("lower", Value::Float(self.lower)),
                named("upper", Value::Float(self.upper)),
                named("sum", Value::Float(self.sum)),
            ],
            "set" => vec![named("count", Value::Uint(self.members.len() as u64))],
            _ => vec![named("value", Value::Float(self.sum))],
        }
    }
}

/// A group in hand, and the gauges of all groups, by their keys.
#[derive(Default)]
struct Server {
    packets: usize,
    refused: u64,
    series: Vec<Series>,
    places: HashMap<String, usize>,
    levels: HashMap<String, f64>,
    key: String,
}

impl Server {
    /// The place of the series of a name with tags and a type; `self.key` is its key then.
    fn place(&mut self, name: &str, tags: &[(String, String)], kind: &'static str) -> usize {
        self.key.clear();
        for part in [name, "|", kind].into_iter().chain(tags.iter().flat_map(|(key, value)| [",", key, "=", value])) {
            self.key.push_str(part);
        }
        if let Some(&place) = self.places.get(&self.key) {
            return place;
        }
        let (name, tags) = (name.to_string(), statsd::tags_with(tags, kind));
        let (lower, upper) = (f64::INFINITY, f64::NEG_INFINITY);
        self.series.push(Series { name, tags, kind, count: 0, lower, upper, sum: 0.0, members: HashSet::new() });
        self.places.insert(self.key.clone(), self.series.len() - 1);
        self.series.len() - 1
    }

    /// The level of the gauge whose key is `self.key`, which is 0 before its first change.
    fn level(&mut self) -> &mut f64 {
        if !self.levels.contains_key(&self.key) {
            self.levels.insert(self.key.clone(), 0.0);
        }
        self.levels.get_mut(&self.key).expect("a level")
    }

    fn line(&mut self, line: &[u8]) -> io::Result<()> {
        let line = line.strip_suffix(b"\r").unwrap_or(line);
        let line = std::str::from_utf8(line).map_err(|_| bad("text"))?;
        if line.bytes().all(|byte| byte == b' ') {
            return Ok(());
        }
        let (name, mut tags, parts) = statsd::split(line)?;
        tags.sort();
        let changes: io::Result<Vec<Change>> = parts.split(':').map(statsd::change).collect();
        for change in changes? {
            let place = self.place(name, &tags, change.kind());
            match change {
                Change::Counter(value) | Change::Timing(value) => self.series[place].add(value),
                Change::Level(value) => {
                    *self.level() = value;
                    self.series[place].sum = value;
                }
                Change::Delta(value) => {
                    *self.level() += value;
                    self.series[place].sum = *self.level();
                }
                Change::Member(text) => {
                    let members = &mut self.series[place].members;
                    if !members.contains(text) {
                        members.insert(text.to_string());
                    }
                }
            }
        }
        Ok(())
    }

    fn packet(&mut self, packet: &[u8]) {
        self.packets += 1;
        for line in packet.split(|&byte| byte == b'\n') {
            self.refused += u64::from(self.line(line).is_err());
        }
    }

    /// The metrics of the group in hand, behind which the next begins.
    fn gather(&mut self, time: i64) -> Vec<Metric> {
        let counts = [("packets", self.packets as u64), ("refused", self.refused)];
        let fields = counts.map(|(key, count)| (key.to_string(), Value::Uint(count))).to_vec();
        let mut metrics = vec![Metric { name: "statsd".to_string(), tags: Vec::new(), fields, time }];
        for series in self.series.drain(..) {
            let fields = series.fields();
            metrics.push(Metric { name: series.name, tags: series.tags, fields, time });
        }
        (self.packets, self.refused) = (0, 0);
        self.places.clear();
        metrics
    }
}

/// The line protocol and the journal that are written.
struct Written {
    output: BufWriter<File>,
    journal: BufWriter<File>,
    items: usize,
}

impl Written {
    fn put(&mut self, metrics: &[Metric]) -> io::Result<()> {
        metrics.iter().try_for_each(|metric| influx::write_line(metric, &mut self.output))?;
        journal::write_journal(metrics, self.items, &mut self.journal)?;
        self.items += metrics.len();
        self.output.flush()?;
        self.journal.flush()
    }
}

fn bound_to(address: &str) -> io::Result<UdpSocket> {
    let socket = UdpSocket::bind(address)?;
    let size = &RECEIVE_BUFFER as *const i32;
    // The value is an i32 of this length.
    if unsafe { setsockopt(socket.as_raw_fd(), SOL_SOCKET, SO_RCVBUF, size.cast(), 4) } != 0 {
        return Err(io::Error::last_os_error());
    }
    socket.set_read_timeout(Some(QUIET))?;
    Ok(socket)
}

fn serve(socket: &UdpSocket, packets: usize, most_quiets: u64, written: &mut Written) -> io::Result<()> {
    let (mut server, mut quiets) = (Server::default(), 0);
    let mut room = vec![0; 65_535];
    while quiets < most_quiets {
        match socket.recv(&mut room) {
            Ok(length) => {
                server.packet(&room[..length]);
                quiets = 0;
            }
            Err(fault) if matches!(fault.kind(), ErrorKind::WouldBlock | ErrorKind::TimedOut) => quiets += 1,
            Err(fault) if fault.kind() == ErrorKind::Interrupted => continue,
            Err(fault) => return Err(fault),
        }
        if server.packets == packets || quiets > 0 && server.packets > 0 {
            let moment = SystemTime::now().duration_since(UNIX_EPOCH).map_or(0, |since| since.as_nanos() as i64);
            written.put(&server.gather(moment))?;
        }
    }
    Ok(())
}

fn run(words: &[String]) -> io::Result<()> {
    let [address, packets, quiets, output, journal] = words else {
        return Err(bad("statsd_server ADDRESS PACKETS QUIETS OUT JOURNAL"));
    };
    let socket = bound_to(address)?;
    let created = |path| Ok::<_, io::Error>(BufWriter::with_capacity(1 << 16, File::create(path)?));
    let mut written = Written { output: created(output)?, journal: created(journal)?, items: 0 };
    writeln!(written.journal, "journal 1\nstart 0\ninput 0 plain\noutput 0 1000 10000")?;
    serve(&socket, number(packets)?, number(quiets)?, &mut written)
}

fn main() {
    let words: Vec<String> = env::args().skip(1).collect();
    if let Err(fault) = run(&words) {
        eprintln!("{fault}");
        exit(1);
    }
}
