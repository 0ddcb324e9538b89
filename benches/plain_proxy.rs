//! A plain proxy of the usual make: a hash ring in a `BTreeMap`, whose points are MD5 digests, and a `HashMap` that remembers the
//! nodes of names. With BATCH above 0 the lines of a datagram that go to one node leave together, as many in one datagram as so many
//! bytes hold; with 0 each line leaves alone. It ends once the file STOP is there, and prints what it counted.
//!
//!     plain_proxy PORT STOP BATCH NODE_PORT..
use std::collections::{BTreeMap, HashMap};
use std::net::UdpSocket;
use std::time::Duration;
use std::{env, path};

const CACHE: usize = 10_000;

const SHIFTS: [u32; 16] = [7, 12, 17, 22, 5, 9, 14, 20, 4, 11, 16, 23, 6, 10, 15, 21];

/// RFC 1321.
fn md5(text: &[u8]) -> [u8; 16] {
    let mut padded = text.to_vec();
    padded.push(0x80);
    while padded.len() % 64 != 56 {
        padded.push(0);
    }
    padded.extend_from_slice(&(text.len() as u64 * 8).to_le_bytes());
    let mut state = [0x6745_2301u32, 0xefcd_ab89, 0x98ba_dcfe, 0x1032_5476];
    for block in padded.chunks_exact(64) {
        let word = |i: usize| u32::from_le_bytes(block[4 * i..4 * i + 4].try_into().unwrap());
        let [mut a, mut b, mut c, mut d] = state;
        for i in 0..64 {
            let (mixed, at) = match i / 16 {
                0 => ((b & c) | (!b & d), i),
                1 => ((d & b) | (!d & c), (5 * i + 1) % 16),
                2 => (b ^ c ^ d, (3 * i + 5) % 16),
                _ => (c ^ (b | !d), 7 * i % 16),
            };
            let constant = ((i as f64 + 1.0).sin().abs() * 4_294_967_296.0) as u32;
            let sum = a.wrapping_add(mixed).wrapping_add(constant).wrapping_add(word(at));
            (a, d, c, b) = (d, c, b, b.wrapping_add(sum.rotate_left(SHIFTS[i / 16 * 4 + i % 4])));
        }
        for (whole, part) in state.iter_mut().zip([a, b, c, d]) {
            *whole = whole.wrapping_add(part);
        }
    }
    let mut digest = [0; 16];
    for (bytes, word) in digest.chunks_exact_mut(4).zip(state) {
        bytes.copy_from_slice(&word.to_le_bytes());
    }
    digest
}

fn word_at(digest: &[u8; 16], at: usize) -> u32 {
    u32::from_le_bytes(digest[at..at + 4].try_into().unwrap())
}

fn ring_of(ports: &[u16]) -> BTreeMap<u32, u8> {
    let mut ring = BTreeMap::new();
    for (node, port) in ports.iter().enumerate() {
        for i in 0..40 {
            let digest = md5(format!("127.0.0.1:{port}-{i}").as_bytes());
            for at in [0, 4, 8, 12] {
                ring.insert(word_at(&digest, at), node as u8);
            }
        }
    }
    ring
}

/// The name, with white space as `_`, a slash as `-`, and no other byte than names have.
fn clean(name: &[u8], key: &mut Vec<u8>) {
    key.clear();
    let mut was_space = false;
    for &byte in name {
        let is_space = byte.is_ascii_whitespace();
        match byte {
            b'/' => key.push(b'-'),
            _ if is_space && !was_space => key.push(b'_'),
            b'a'..=b'z' | b'A'..=b'Z' | b'0'..=b'9' | b'_' | b'-' | b'.' => key.push(byte),
            _ => {}
        }
        was_space = is_space;
    }
}

fn owner(ring: &BTreeMap<u32, u8>, cache: &mut HashMap<Vec<u8>, u8>, key: &[u8]) -> u8 {
    if let Some(node) = cache.get(key) {
        return *node;
    }
    let at = word_at(&md5(key), 0);
    let node = *ring.range(at..).next().or_else(|| ring.iter().next()).unwrap().1;
    if cache.len() >= CACHE {
        cache.clear();
    }
    cache.insert(key.to_vec(), node);
    node
}

#[derive(Default)]
struct Counts {
    packets: u64,
    lines: u64,
    bad: u64,
    sent: u64,
    faults: u64,
}

/// A node's socket, with the lines that wait to be sent to it together.
struct Wire {
    socket: UdpSocket,
    waiting: Vec<u8>,
    lines: u64,
}

impl Wire {
    fn to(port: u16) -> Self {
        let socket = UdpSocket::bind("0.0.0.0:0").unwrap();
        socket.connect(("127.0.0.1", port)).unwrap();
        Wire { socket, waiting: Vec::new(), lines: 0 }
    }

    fn send(&self, bytes: &[u8], lines: u64, counts: &mut Counts) {
        match self.socket.send(bytes) {
            Ok(n) if n == bytes.len() => counts.sent += lines,
            _ => counts.faults += lines,
        }
    }

    fn flush(&mut self, counts: &mut Counts) {
        if self.lines > 0 {
            self.send(&self.waiting, self.lines, counts);
            self.waiting.clear();
            self.lines = 0;
        }
    }

    /// Puts a line behind those that wait, which are sent first where these bytes don't hold it too.
    fn put(&mut self, line: &[u8], most: usize, counts: &mut Counts) {
        if most == 0 {
            return self.send(line, 1, counts);
        }
        if self.waiting.len() + 1 + line.len() > most {
            self.flush(counts);
        }
        if self.lines > 0 {
            self.waiting.push(b'\n');
        }
        self.waiting.extend_from_slice(line);
        self.lines += 1;
    }
}

/// The key of a line's name, which is left in `key`; none where the line is bad.
fn key_of(line: &[u8], key: &mut Vec<u8>) -> Option<()> {
    let colon = line.iter().position(|&byte| byte == b':')?;
    clean(&line[..colon], key);
    (1..=255).contains(&key.len()).then_some(())
}

fn main() {
    let words: Vec<String> = env::args().collect();
    let socket = UdpSocket::bind(("127.0.0.1", words[1].parse().unwrap())).unwrap();
    socket.set_read_timeout(Some(Duration::from_millis(100))).unwrap();
    let batch: usize = words[3].parse().unwrap();
    let ports: Vec<u16> = words[4..].iter().map(|it| it.parse().unwrap()).collect();
    let mut wires: Vec<Wire> = ports.iter().map(|port| Wire::to(*port)).collect();
    let ring = ring_of(&ports);
    let mut cache = HashMap::new();
    let mut buffer = vec![0; 65_536];
    let mut key = Vec::new();
    let mut counts = Counts::default();
    loop {
        let Ok(len) = socket.recv(&mut buffer) else {
            if path::Path::new(&words[2]).exists() {
                break;
            }
            continue;
        };
        counts.packets += 1;
        for line in buffer[..len].split(|&byte| byte == b'\n').map(<[u8]>::trim_ascii_end).filter(|it| !it.is_empty()) {
            counts.lines += 1;
            if key_of(line, &mut key).is_none() {
                counts.bad += 1;
                continue;
            }
            let node = owner(&ring, &mut cache, &key);
            wires[usize::from(node)].put(line, batch, &mut counts);
        }
        for wire in &mut wires {
            wire.flush(&mut counts);
        }
    }
    let Counts { packets, lines, bad, sent, faults } = counts;
    for (name, count) in [("packets", packets), ("lines", lines), ("bad", bad), ("sent", sent), ("send_faults", faults)] {
        println!("{name} {count}");
    }
}
