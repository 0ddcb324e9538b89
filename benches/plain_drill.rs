//! The drill of `statsd drill N` as a plain Rust program of the usual make: it makes the same packets, cuts and reads their lines
//! into a map for each kind, reckons in floats at each flush, puts Graphite's text of it into a string, and prints the same totals.
//!
//!     plain_drill N
use std::collections::{HashMap, HashSet};
use std::env;
use std::fmt::Write;

#[derive(Default)]
struct Tables {
    counters: HashMap<Vec<u8>, f64>,
    timers: HashMap<Vec<u8>, Vec<f64>>,
    gauges: HashMap<Vec<u8>, f64>,
    sets: HashMap<Vec<u8>, HashSet<Vec<u8>>>,
}

#[derive(Default)]
struct Counts {
    packets: u64,
    lines: u64,
    bad: u64,
}

fn clean(name: &[u8], key: &mut Vec<u8>) {
    key.clear();
    let mut was_space = false;
    for &byte in name {
        let is_space = byte.is_ascii_whitespace();
        match byte {
            b'/' => key.push(b'-'),
            _ if is_space && !was_space => key.push(b'_'),
            b'a'..=b'z' | b'A'..=b'Z' | b'0'..=b'9' | b'_' | b'-' | b'.' => key.push(byte),
            _ => {}
        }
        was_space = is_space;
    }
}

fn number(text: &[u8]) -> Option<f64> {
    str::from_utf8(text).ok()?.parse().ok()
}

/// The value of a key, which is made where it is absent.
fn at<'a, T: Default>(map: &'a mut HashMap<Vec<u8>, T>, key: &Vec<u8>) -> &'a mut T {
    if !map.contains_key(key) {
        map.insert(key.clone(), T::default());
    }
    map.get_mut(key).unwrap()
}

fn take(tables: &mut Tables, line: &[u8], key: &mut Vec<u8>) -> Option<()> {
    let colon = line.iter().position(|&byte| byte == b':')?;
    let mut fields = line[colon + 1..].split(|&byte| byte == b'|');
    let (value, kind, rate) = (fields.next()?, fields.next()?, fields.next());
    let rate = match rate {
        Some(rate) => number(rate.strip_prefix(b"@")?)?,
        None => 1.0,
    };
    clean(&line[..colon], key);
    if key.is_empty() || key.len() > 255 {
        return None;
    }
    match kind {
        b"c" => *at(&mut tables.counters, key) += number(value)? / rate,
        b"ms" => at(&mut tables.timers, key).push(number(value)?),
        b"g" if value.starts_with(b"+") || value.starts_with(b"-") => *at(&mut tables.gauges, key) += number(value)?,
        b"g" => *at(&mut tables.gauges, key) = number(value)?,
        b"s" => drop(at(&mut tables.sets, key).insert(value.to_vec())),
        _ => return None,
    }
    Some(())
}

/// A number with at most six digits behind the point, and none where they are zero.
fn put(text: &mut String, value: f64) {
    if value.fract() == 0.0 {
        write!(text, "{}", value as i64).unwrap();
    } else {
        write!(text, "{}", (value * 1e6).round() / 1e6).unwrap();
    }
}

fn line(text: &mut String, front: &str, key: &[u8], behind: &str, value: f64, second: u64) {
    text.push_str(front);
    text.push_str(str::from_utf8(key).unwrap());
    text.push_str(behind);
    text.push(' ');
    put(text, value);
    writeln!(text, " {second}").unwrap();
}

fn timer(text: &mut String, key: &[u8], values: &mut [f64], second: u64) {
    let mut put = |name: &str, value: f64| line(text, "stats.timers.", key, name, value, second);
    if values.is_empty() {
        put(".count", 0.0);
        put(".count_ps", 0.0);
        return;
    }
    values.sort_unstable_by(f64::total_cmp);
    let n = values.len();
    let part = &values[..if n == 1 { 1 } else { (0.9 * n as f64 + 0.5).floor() as usize }];
    let sum_of = |values: &[f64]| values.iter().sum::<f64>();
    let squares_of = |values: &[f64]| values.iter().map(|value| value * value).sum::<f64>();
    if let Some(last) = part.last() {
        put(".count_90", part.len() as f64);
        put(".mean_90", sum_of(part) / part.len() as f64);
        put(".upper_90", *last);
        put(".sum_90", sum_of(part));
        put(".sum_squares_90", squares_of(part));
    }
    let mean = sum_of(values) / n as f64;
    let distances = values.iter().map(|value| (value - mean) * (value - mean)).sum::<f64>();
    put(".std", ((distances / n as f64).sqrt() * 1e6).floor() / 1e6);
    put(".upper", values[n - 1]);
    put(".lower", values[0]);
    put(".count", n as f64);
    put(".count_ps", n as f64 / 10.0);
    put(".sum", sum_of(values));
    put(".sum_squares", squares_of(values));
    put(".mean", mean);
    put(".median", if n % 2 == 1 { values[n / 2] } else { (values[n / 2 - 1] + values[n / 2]) / 2.0 });
}

fn in_order<T>(map: &mut HashMap<Vec<u8>, T>) -> Vec<(&Vec<u8>, &mut T)> {
    let mut rows: Vec<_> = map.iter_mut().collect();
    rows.sort_unstable_by(|a, b| a.0.cmp(b.0));
    rows
}

/// Graphite's text of a flush. What is idle stays, as counters and timers without samples and gauges as they were.
fn flush(tables: &mut Tables, counts: &Counts, second: u64, text: &mut String) {
    text.clear();
    let rows = tables.counters.len() + tables.timers.len() + tables.gauges.len() + tables.sets.len();
    for (key, sum) in in_order(&mut tables.counters) {
        line(text, "stats.", key, "", *sum / 10.0, second);
        line(text, "stats_counts.", key, "", *sum, second);
        *sum = 0.0;
    }
    for (key, values) in in_order(&mut tables.timers) {
        timer(text, key, values, second);
        values.clear();
    }
    for (key, value) in in_order(&mut tables.gauges) {
        line(text, "stats.gauges.", key, "", *value, second);
    }
    for (key, members) in in_order(&mut tables.sets) {
        line(text, "stats.sets.", key, ".count", members.len() as f64, second);
        members.clear();
    }
    for (name, count) in [
        ("bad_lines_seen", counts.bad),
        ("packets_received", counts.packets),
        ("metrics_received", counts.lines),
        ("samples_dropped", 0),
    ] {
        line(text, "stats.statsd.", name.as_bytes(), "", count as f64 / 10.0, second);
        line(text, "stats_counts.statsd.", name.as_bytes(), "", count as f64, second);
    }
    line(text, "statsd.numStats", b"", "", rows as f64, second);
}

fn main() {
    let packets: u64 = env::args().nth(1).unwrap().parse().unwrap();
    let (mut tables, mut all, mut since) = (Tables::default(), Counts::default(), Counts::default());
    let (mut text, mut packet, mut key) = (String::new(), String::new(), Vec::new());
    let (mut x, mut rounds, mut bytes) = (1, 0, 0);
    for at in 0..packets {
        packet.clear();
        for (name, kind) in [('c', "c"), ('t', "ms"), ('g', "g"), ('s', "s")] {
            x = (75 * x + 74) % 65537;
            if !packet.is_empty() {
                packet.push('\n');
            }
            write!(packet, "drill.{name}{}:{}|{kind}", x / 4 % 1000, x % 1000).unwrap();
        }
        since.packets += 1;
        for part in packet.as_bytes().split(|&byte| byte == b'\n').map(<[u8]>::trim_ascii_end).filter(|part| !part.is_empty()) {
            since.lines += 1;
            if take(&mut tables, part, &mut key).is_none() {
                since.bad += 1;
            }
        }
        if (at + 1) % 1000 == 0 || at + 1 == packets {
            rounds += 1;
            flush(&mut tables, &since, 1000 + 10 * rounds, &mut text);
            bytes += text.len();
            all = Counts { packets: all.packets + since.packets, lines: all.lines + since.lines, bad: all.bad + since.bad };
            since = Counts::default();
        }
    }
    let taken = all.lines - all.bad;
    println!("packets {}\nlines {}\nbad {}\ntaken {taken}\ndropped 0\nflushed {taken}\nheld 0\ndeleted 0", all.packets, all.lines, all.bad);
    println!("rounds {rounds}\ngraphite_faults 0\nconsole_faults 0\nrepeater_faults 0\nadmin_faults 0\nbytes {bytes}");
}
