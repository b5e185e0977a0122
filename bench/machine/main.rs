//! Times the proved machine beside the same interpreter in plain Rust: the same pages, turns and memory in both, in one
//! process, in turns. Prints for each page, with tabs between: its name, its steps, and the steps of each in a second.

mod plain;

#[link(name = "machine_export", kind = "static")]
unsafe extern "C" {
    fn machine_play(
        page: *const u8,
        page_len: usize,
        turns: u32,
        bytes: *const u8,
        bytes_len: usize,
        memory: *mut u8,
        memory_len: usize,
    ) -> u32;
}

/// Seconds and nanoseconds, as the C library has them.
#[repr(C)]
struct Timespec {
    seconds: i64,
    nanoseconds: i64,
}

unsafe extern "C" {
    fn clock_gettime(clock: i32, now: *mut Timespec) -> i32;
}

/// The processor time of this thread in seconds: what others do on the machine does not count.
fn processor_time() -> f64 {
    const CLOCK_THREAD_CPUTIME_ID: i32 = 3;
    let mut now = Timespec { seconds: 0, nanoseconds: 0 };
    let answer = unsafe { clock_gettime(CLOCK_THREAD_CPUTIME_ID, &mut now) };
    assert_eq!(answer, 0, "no clock");
    now.seconds as f64 + now.nanoseconds as f64 / 1e9
}

/// The proved machine; its contract asks nothing of its arguments.
fn proved(page: &[u8], turns: u32, bytes: &[u8], memory: &mut [u8]) -> u32 {
    unsafe {
        machine_play(
            page.as_ptr(),
            page.len(),
            turns,
            bytes.as_ptr(),
            bytes.len(),
            memory.as_mut_ptr(),
            memory.len(),
        )
    }
}

/// One line of a page program: kind, places a, b and c, number.
type Line = (u8, u8, u8, u8, u32);

fn page(lines: &[Line]) -> Vec<u8> {
    let mut page = b"PAGE 1".to_vec();
    page.extend((lines.len() as u16).to_be_bytes());
    for (kind, a, b, c, number) in lines {
        page.extend([*kind, *a, *b, *c]);
        page.extend(number.to_be_bytes());
    }
    page
}

/// Sums, products and comparisons of registers, without end.
fn arithmetic() -> Vec<u8> {
    page(&[
        (0, 4, 0, 0, 1),
        (0, 6, 0, 0, 1_664_525),
        (0, 7, 0, 0, 1_013_904_223),
        (3, 5, 5, 6, 0),
        (2, 5, 5, 7, 0),
        (5, 8, 5, 7, 0),
        (2, 9, 9, 8, 0),
        (4, 10, 9, 5, 0),
        (1, 11, 9, 0, 0),
        (2, 12, 12, 11, 0),
        (7, 4, 0, 0, 3),
    ])
}

/// Walks over the memory again and again, and adds each byte to the next one.
fn walk() -> Vec<u8> {
    page(&[
        (0, 4, 0, 0, 1),
        (0, 5, 0, 0, 4095),
        (0, 6, 0, 0, 0),
        (8, 7, 6, 0, 0),
        (2, 6, 6, 4, 0),
        (8, 8, 6, 0, 0),
        (2, 7, 7, 8, 0),
        (2, 7, 7, 4, 0),
        (9, 6, 7, 0, 0),
        (5, 9, 6, 5, 0),
        (7, 9, 0, 0, 3),
        (6, 0, 0, 0, 2),
    ])
}

/// Waits in every turn: adds up the first 16 bytes of what it is told, and says all of it to a window.
fn turns() -> Vec<u8> {
    page(&[
        (0, 4, 0, 0, 1),
        (0, 5, 0, 0, 16),
        (0, 6, 0, 0, 0),
        (8, 7, 6, 0, 0),
        (2, 8, 8, 7, 0),
        (2, 6, 6, 4, 0),
        (5, 9, 6, 5, 0),
        (7, 9, 0, 0, 3),
        (1, 21, 1, 0, 0),
        (10, 8, 2, 20, 2),
        (6, 0, 0, 0, 2),
    ])
}

/// Waits after six steps: the copying of what it is told is most of its work.
fn shortest() -> Vec<u8> {
    page(&[
        (0, 4, 0, 0, 1),
        (0, 20, 0, 0, 0),
        (8, 6, 20, 0, 0),
        (2, 7, 7, 6, 0),
        (2, 8, 8, 4, 0),
        (1, 21, 1, 0, 0),
        (10, 8, 2, 20, 2),
        (6, 0, 0, 0, 2),
    ])
}

/// Runs something over a cleared memory: how long it took, and what it answered and left.
fn timed(memory: &mut [u8], run: impl FnOnce(&mut [u8]) -> u32) -> (f64, u32, Vec<u8>) {
    memory.fill(0);
    let start = processor_time();
    let done = run(memory);
    (processor_time() - start, done, memory.to_vec())
}

fn main() {
    let told: Vec<u8> = (0..1024u32).map(|i| (i * 7 % 251) as u8).collect();
    let programs = [
        ("arithmetic loop", arithmetic(), 4_000),
        ("memory walk", walk(), 4_000),
        ("short turns, told 1,024 bytes", turns(), 300_000),
        ("the same, of six steps each", shortest(), 1_000_000),
    ];
    let rounds: u32 = std::env::args().nth(1).and_then(|n| n.parse().ok()).unwrap_or(10);
    for (name, page, turns) in &programs {
        // the best of some rounds, one of each in turn, over the same memory; both must leave the same
        let mut memory = vec![0u8; 4096];
        let (mut ours, mut theirs, mut steps) = (f64::MAX, f64::MAX, 0);
        for _ in 0..rounds {
            let (time, done, left) = timed(&mut memory, |memory| proved(page, *turns, &told, memory));
            ours = ours.min(time);
            let (time, expected, model) = timed(&mut memory, |memory| {
                let (done, all) = plain::play(page, *turns, &told, memory);
                steps = all;
                done
            });
            theirs = theirs.min(time);
            assert_eq!((done, left), (expected, model), "{name}: the two differ");
        }
        println!("{name}\t{steps}\t{:.0}\t{:.0}", steps as f64 / ours, steps as f64 / theirs);
    }
}
