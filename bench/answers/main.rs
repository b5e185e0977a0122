//! Compares the proved answer reader with the same rules in plain Rust on many texts, and times both and httparse.
mod plain;

use std::hint::black_box;
use std::time::Instant;

unsafe extern "C" {
    fn answer_summary(s: *const u8, n: usize) -> u64;
}

fn proved(s: &[u8]) -> u64 {
    // A slice is passed as its pointer and its length.
    unsafe { answer_summary(s.as_ptr(), s.len()) }
}

/// The same number as the proved crate's: a fault, or code, length, token and whom it allows.
fn plain(s: &[u8]) -> u64 {
    match plain::read_answer(16_384, s) {
        Err(plain::Fault::Unreadable) => 6,
        Err(plain::Fault::Value) => 7,
        Ok(a) => {
            let token = a.token.map_or(0, |t| 1 + t.len() as u64);
            let allowed = match a.allowed {
                None => 0,
                Some(plain::Allowed::Everybody) => 1,
                Some(plain::Allowed::Site(..)) => 2,
            };
            16 + (u64::from(a.code) << 34) + ((a.body.len() as u64) << 10) + token * 4 + allowed
        }
    }
}

/// httparse knows less: neither which values are right nor whether a name comes twice, and not the body.
fn httparse(s: &[u8]) -> u64 {
    let mut headers = [httparse::EMPTY_HEADER; 64];
    let mut response = httparse::Response::new(&mut headers);
    match response.parse(s) {
        Ok(httparse::Status::Complete(n)) => u64::from(response.code.unwrap_or(0)) + n as u64,
        _ => 0,
    }
}

struct Random(u64);

impl Random {
    fn below(&mut self, n: usize) -> usize {
        self.0 ^= self.0 << 13;
        self.0 ^= self.0 >> 7;
        self.0 ^= self.0 << 17;
        (self.0 % n as u64) as usize
    }
}

const LINES: [&str; 12] = [
    "Date: Mon, 27 Jul 2009 12:28:53 GMT",
    "Server: Apache",
    "Last-Modified: Wed, 22 Jul 2009 19:15:56 GMT",
    "ETag: \"34aa387-d-1568eb00\"",
    "Accept-Ranges: bytes",
    "Vary: Accept-Encoding",
    "Content-Type: text/plain",
    "cache-control: no-store, max-age=0",
    "x-request-id: 7f3b9c0e-51aa-4c1e-9a57-0f2f8e1d7c11",
    "strict-transport-security: max-age=31536000; includeSubDomains",
    "content-security-policy: default-src 'self'; frame-ancestors 'none'",
    "referrer-policy: no-referrer",
];

fn answer(random: &mut Random, others: usize, length: usize) -> Vec<u8> {
    let mut lines: Vec<String> = LINES[..others].iter().map(|l| l.to_string()).collect();
    if random.below(2) == 0 {
        lines.push("Set-Cookie: SID=31d4d96e407aad42".to_string());
    }
    match random.below(3) {
        0 => lines.push("Access-Control-Allow-Origin: *".to_string()),
        1 => lines.push("access-control-allow-origin: https://shop.example:8443".to_string()),
        _ => {}
    }
    lines.push(format!("Content-Length: {length}"));
    let mut text = format!("HTTP/1.1 {} OK\r\n", 200 + random.below(300)).into_bytes();
    for line in lines {
        text.extend_from_slice(line.as_bytes());
        text.extend_from_slice(b"\r\n");
    }
    text.extend_from_slice(b"\r\n");
    text.extend((0..length).map(|_| random.below(256) as u8));
    text
}

/// Cuts, changes, doubles and swaps bytes and lines.
fn damage(random: &mut Random, text: &[u8]) -> Vec<u8> {
    const BYTES: &[u8] = b"\r\n :\tA0*/~\x7f\x80\0,-;";
    let mut text = text.to_vec();
    let head = text.len().min(400);
    for _ in 0..1 + random.below(2) {
        let at = random.below(head.min(text.len()).max(1)).min(text.len().saturating_sub(1));
        match random.below(5) {
            0 => text.truncate(at),
            1 if !text.is_empty() => text[at] = BYTES[random.below(BYTES.len())],
            2 if !text.is_empty() => text[at] ^= 0x20,
            3 => text.insert(at, BYTES[random.below(BYTES.len())]),
            _ => {
                // a line once more, somewhere else
                let lines: Vec<Vec<u8>> = text.split_inclusive(|b| *b == b'\n').map(<[u8]>::to_vec).collect();
                if lines.len() > 2 {
                    let line = lines[1 + random.below((lines.len() - 1).min(10))].clone();
                    let place = 1 + random.below((lines.len() - 1).min(10));
                    let mut lines = lines;
                    lines.insert(place, line);
                    text = lines.concat();
                }
            }
        }
    }
    text
}

/// Megabytes per second of each reader: the best of many rounds, in which they take turns.
fn speeds<const N: usize>(texts: &[Vec<u8>], readers: [fn(&[u8]) -> u64; N]) -> [f64; N] {
    let bytes: usize = texts.iter().map(Vec::len).sum();
    let mut best = [f64::MAX; N];
    for _ in 0..40 {
        for (read, best) in readers.iter().zip(&mut best) {
            let start = Instant::now();
            for _ in 0..5 {
                for text in texts {
                    black_box(read(black_box(text)));
                }
            }
            *best = best.min(start.elapsed().as_secs_f64() / 5.0);
        }
    }
    best.map(|seconds| bytes as f64 / seconds / 1e6)
}

fn main() {
    let mut random = Random(0x9E37_79B9_7F4A_7C15);
    let short: Vec<Vec<u8>> = (0..500).map(|_| { let (o, n) = (random.below(5), random.below(64)); answer(&mut random, o, n) }).collect();
    let long: Vec<Vec<u8>> = (0..100).map(|_| { let (o, n) = (6 + random.below(7), 4096 + random.below(12_289)); answer(&mut random, o, n) }).collect();
    let mixed: Vec<Vec<u8>> = short.iter().chain(&long).cloned().collect();

    let (mut same, mut read, mut six, mut seven) = (0, 0, 0, 0);
    for round in 0..200_000 {
        let text = &mixed[round % mixed.len()];
        let text = if round < mixed.len() { text.clone() } else { damage(&mut random, text) };
        let (a, b) = (proved(&text), plain(&text));
        if a != b {
            println!("differ: {a} and {b} on {:?}", String::from_utf8_lossy(&text[..text.len().min(600)]));
            std::process::exit(1);
        }
        same += 1;
        match a {
            6 => six += 1,
            7 => seven += 1,
            _ => read += 1,
        }
    }
    println!("{same} texts: the same answer from both ({read} read, {six} with fault 6, {seven} with fault 7)");

    for (name, texts) in [("short", &short), ("long", &long), ("mixed", &mixed)] {
        let [p, r, h] = speeds(texts, [proved, plain, httparse]);
        println!("{name}: proved {p:.0} MB/s, plain Rust {r:.0} MB/s (ratio {:.2}), httparse {h:.0} MB/s (ratio {:.2})", p / r, p / h);
    }
}
