//! A plain StatsD server of the usual make: receivers that share a socket, maps in shards behind locks, and a thread that takes
//! them at each flush and makes Graphite's text. It ends once the file STOP is there, and prints what it counted.
//!
//!     plain PORT RECEIVERS SHARDS FLUSH_MS STOP
use std::collections::hash_map::DefaultHasher;
use std::collections::{HashMap, HashSet};
use std::fmt::Write;
use std::hash::{Hash, Hasher};
use std::net::UdpSocket;
use std::sync::Mutex;
use std::sync::atomic::{AtomicBool, AtomicU64, Ordering};
use std::time::{Duration, Instant};
use std::{env, fs, mem, path, str, thread};

#[derive(Default)]
struct Tables {
    counters: HashMap<Vec<u8>, f64>,
    timers: HashMap<Vec<u8>, (Vec<f64>, f64)>,
    gauges: HashMap<Vec<u8>, f64>,
    sets: HashMap<Vec<u8>, HashSet<Vec<u8>>>,
}

#[derive(Default)]
struct Counts {
    packets: AtomicU64,
    lines: AtomicU64,
    bad: AtomicU64,
    taken: AtomicU64,
}

/// The name, with white space as `_`, a slash as `-`, and no other byte than names have.
fn clean(name: &[u8], key: &mut Vec<u8>) {
    key.clear();
    let mut was_space = false;
    for &byte in name {
        let is_space = byte.is_ascii_whitespace();
        match byte {
            b'/' => key.push(b'-'),
            _ if is_space && !was_space => key.push(b'_'),
            b'a'..=b'z' | b'A'..=b'Z' | b'0'..=b'9' | b'_' | b'-' | b'.' => key.push(byte),
            _ => {}
        }
        was_space = is_space;
    }
}

fn number(text: &[u8]) -> Option<f64> {
    str::from_utf8(text).ok()?.parse().ok()
}

fn take(shards: &[Mutex<Tables>], line: &[u8], key: &mut Vec<u8>) -> Option<()> {
    let colon = line.iter().position(|&byte| byte == b':')?;
    let mut fields = line[colon + 1..].split(|&byte| byte == b'|');
    let (value, kind, rate) = (fields.next()?, fields.next()?, fields.next());
    let rate = match rate {
        Some(rate) => number(rate.strip_prefix(b"@")?)?,
        None => 1.0,
    };
    clean(&line[..colon], key);
    if key.is_empty() || key.len() > 255 {
        return None;
    }
    let mut hasher = DefaultHasher::new();
    key.hash(&mut hasher);
    let mut tables = shards[hasher.finish() as usize % shards.len()].lock().unwrap();
    match kind {
        b"c" => {
            let weight = number(value)? / rate;
            match tables.counters.get_mut(key.as_slice()) {
                Some(sum) => *sum += weight,
                None => drop(tables.counters.insert(key.clone(), weight)),
            }
        }
        b"ms" => {
            let value = number(value)?;
            let (values, count) = match tables.timers.get_mut(key.as_slice()) {
                Some(timer) => timer,
                None => tables.timers.entry(key.clone()).or_default(),
            };
            values.push(value);
            *count += 1.0 / rate;
        }
        b"g" => {
            let changed = number(value)?;
            let is_step = matches!(value.first(), Some(b'+' | b'-'));
            match tables.gauges.get_mut(key.as_slice()) {
                Some(gauge) if is_step => *gauge += changed,
                Some(gauge) => *gauge = changed,
                None => drop(tables.gauges.insert(key.clone(), changed)),
            }
        }
        b"s" => match tables.sets.get_mut(key.as_slice()) {
            Some(set) if set.contains(value) => {}
            Some(set) => drop(set.insert(value.to_vec())),
            None => drop(tables.sets.entry(key.clone()).or_default().insert(value.to_vec())),
        },
        _ => return None,
    }
    Some(())
}

fn receive(socket: &UdpSocket, shards: &[Mutex<Tables>], counts: &Counts, stop: &AtomicBool) {
    let mut buffer = vec![0; 65_536];
    let mut key = Vec::new();
    loop {
        let Ok(len) = socket.recv(&mut buffer) else {
            if stop.load(Ordering::SeqCst) {
                return;
            }
            continue;
        };
        let (mut lines, mut bad) = (0, 0);
        for line in buffer[..len].split(|&byte| byte == b'\n') {
            let line = line.trim_ascii_end();
            if line.is_empty() {
                continue;
            }
            lines += 1;
            if take(shards, line, &mut key).is_none() {
                bad += 1;
            }
        }
        counts.packets.fetch_add(1, Ordering::Relaxed);
        counts.lines.fetch_add(lines, Ordering::Relaxed);
        counts.bad.fetch_add(bad, Ordering::Relaxed);
        counts.taken.fetch_add(lines - bad, Ordering::Relaxed);
    }
}

fn flush(shards: &[Mutex<Tables>], seconds: f64, text: &mut String) {
    text.clear();
    for shard in shards {
        // (rows stay, with nothing in them, as a gauge with its value)
        let mut taken = Tables::default();
        {
            let mut tables = shard.lock().unwrap();
            taken.gauges = tables.gauges.clone();
            taken.counters.extend(tables.counters.iter_mut().map(|(key, sum)| (key.clone(), mem::take(sum))));
            taken.timers.extend(tables.timers.iter_mut().map(|(key, timer)| (key.clone(), mem::take(timer))));
            taken.sets.extend(tables.sets.iter_mut().map(|(key, set)| (key.clone(), mem::take(set))));
        }
        let shown = |key: &[u8]| String::from_utf8_lossy(key).into_owned();
        for (key, sum) in &taken.counters {
            let key = shown(key);
            let _ = writeln!(text, "stats.{key} {} 0\nstats_counts.{key} {sum} 0", sum / seconds);
        }
        for (key, (values, count)) in &mut taken.timers {
            let key = shown(key);
            values.sort_unstable_by(f64::total_cmp);
            let sum: f64 = values.iter().sum();
            let squares: f64 = values.iter().map(|value| value * value).sum();
            let n = values.len().max(1) as f64;
            let mean = sum / n;
            let upper = values.last().copied().unwrap_or(0.0);
            let lower = values.first().copied().unwrap_or(0.0);
            let deviation = (squares / n - mean * mean).max(0.0).sqrt();
            let part = &values[..(values.len() * 9).div_ceil(10)];
            let part_sum: f64 = part.iter().sum();
            let _ = writeln!(
                text,
                "{key}.count_90 {} 0\n{key}.mean_90 {} 0\n{key}.upper_90 {} 0\n{key}.sum_90 {part_sum} 0\n{key}.std {deviation} 0\n\
                 {key}.upper {upper} 0\n{key}.lower {lower} 0\n{key}.count {count} 0\n{key}.count_ps {} 0\n{key}.sum {sum} 0\n\
                 {key}.sum_squares {squares} 0\n{key}.mean {mean} 0",
                part.len(),
                part_sum / part.len().max(1) as f64,
                part.last().copied().unwrap_or(0.0),
                *count / seconds,
            );
        }
        for (key, value) in &taken.gauges {
            let _ = writeln!(text, "stats.gauges.{} {value} 0", shown(key));
        }
        for (key, set) in &taken.sets {
            let _ = writeln!(text, "stats.sets.{}.count {} 0", shown(key), set.len());
        }
    }
}

fn main() {
    let words: Vec<String> = env::args().collect();
    let number_of = |i: usize| words[i].parse::<u64>().unwrap();
    let socket = UdpSocket::bind(("127.0.0.1", number_of(1) as u16)).unwrap();
    socket.set_read_timeout(Some(Duration::from_millis(100))).unwrap();
    let shards: Vec<Mutex<Tables>> = (0..number_of(3)).map(|_| Mutex::default()).collect();
    let counts = Counts::default();
    let stop = AtomicBool::new(false);
    let interval = Duration::from_millis(number_of(4));
    thread::scope(|scope| {
        for _ in 0..number_of(2) {
            let socket = socket.try_clone().unwrap();
            let (shards, counts, stop) = (&shards, &counts, &stop);
            scope.spawn(move || receive(&socket, shards, counts, stop));
        }
        let mut text = String::new();
        let mut due = Instant::now() + interval;
        while !path::Path::new(&words[5]).exists() {
            thread::sleep(Duration::from_millis(50));
            if Instant::now() >= due {
                flush(&shards, interval.as_secs_f64(), &mut text);
                let _ = fs::write("/dev/null", &text);
                due += interval;
            }
        }
        stop.store(true, Ordering::SeqCst);
    });
    for (name, count) in [("packets", &counts.packets), ("lines", &counts.lines), ("bad", &counts.bad), ("taken", &counts.taken)] {
        println!("{name} {}", count.load(Ordering::SeqCst));
    }
}
