//! The same machine in plain Rust, to compare with: the same steps, limits and turns, with Rust's own checks of indices.

#[derive(Clone, Copy)]
pub enum Step {
    Constant(u8, u32),
    Move(u8, u8),
    Sum(u8, u8, u8),
    Product(u8, u8, u8),
    Equal(u8, u8, u8),
    Less(u8, u8, u8),
    Jump(u32),
    JumpIf(u8, u32),
    Load(u8, u8),
    Store(u8, u8),
    Wait(Call),
}

#[derive(Clone, Copy)]
pub enum Call {
    Nothing,
    Ask { site: u8, path: u8, body: u8 },
    Say { window: u8, site: u8, bytes: u8 },
    Keep { bytes: u8 },
    Look,
    Open { site: u8, path: u8 },
}

#[derive(Clone, Copy)]
pub struct Span {
    pub from: u32,
    pub len: u32,
}

// an act is handed on whole, and not all of it is read here
#[allow(dead_code)]
#[derive(Clone, Copy)]
pub enum Act {
    Nothing,
    Ask { site: u32, path: Span, body: Span },
    Say { window: u32, site: u32, bytes: Span },
    Keep { bytes: Span },
    Look,
    Open { site: u32, path: Span },
}

#[derive(Clone, Copy)]
pub enum Outcome {
    Did(Act),
    Refused,
    Paused,
    Faulted,
    Idle,
}

enum Flow {
    On,
    Waits(Act),
    Faults,
}

enum Status {
    Waiting,
    Running,
    Ended,
}

pub struct Machine {
    registers: [u32; 32],
    next: usize,
    status: Status,
    pub steps: u64,
}

fn decode(b: &[u8]) -> Option<Step> {
    let n = u32::from_be_bytes([b[4], b[5], b[6], b[7]]);
    let (x, y, z) = (b[1], b[2], b[3]);
    Some(match b[0] {
        0 => Step::Constant(x, n),
        1 => Step::Move(x, y),
        2 => Step::Sum(x, y, z),
        3 => Step::Product(x, y, z),
        4 => Step::Equal(x, y, z),
        5 => Step::Less(x, y, z),
        6 => Step::Jump(n),
        7 => Step::JumpIf(x, n),
        8 => Step::Load(x, y),
        9 => Step::Store(x, y),
        10 => Step::Wait(match n {
            0 => Call::Nothing,
            1 => Call::Ask { site: x, path: y, body: z },
            2 => Call::Say { window: x, site: y, bytes: z },
            3 => Call::Keep { bytes: x },
            4 => Call::Look,
            5 => Call::Open { site: x, path: y },
            _ => return None,
        }),
        _ => return None,
    })
}

/// The steps of a page file.
pub fn read(page: &[u8]) -> Option<Vec<Step>> {
    let body = page.strip_prefix(b"PAGE 1")?;
    let count = usize::from(u16::from_be_bytes([*body.first()?, *body.get(1)?]));
    if count > 2000 || body.len() != 2 + count * 8 {
        return None;
    }
    body[2..].chunks_exact(8).map(decode).collect()
}

fn is_path(bytes: &[u8]) -> bool {
    bytes.len() <= 255 && bytes.first() == Some(&b'/') && bytes.iter().all(|b| (b'!'..=b'~').contains(b))
}

fn part(span: Span, memory: &[u8]) -> &[u8] {
    &memory[span.from as usize..span.from as usize + span.len as usize]
}

fn allows(act: Act, sites: u32, memory: &[u8]) -> bool {
    match act {
        Act::Nothing | Act::Look => true,
        Act::Ask { site, path, body } => site < sites && is_path(part(path, memory)) && body.len <= 1024,
        Act::Say { site, bytes, .. } => site < sites && bytes.len <= 1024,
        Act::Keep { bytes } => bytes.len <= 4096,
        Act::Open { site, path } => site < sites && is_path(part(path, memory)),
    }
}

impl Machine {
    pub fn new() -> Machine {
        Machine { registers: [0; 32], next: 0, status: Status::Waiting, steps: 0 }
    }

    fn number(&self, a: u8) -> Option<u32> {
        if a >= 32 {
            return None;
        }
        Some(self.registers[a as usize])
    }

    fn pair(&self, a: u8, b: u8) -> Option<(u32, u32)> {
        if a >= 32 || b >= 32 {
            return None;
        }
        Some((self.registers[a as usize], self.registers[b as usize]))
    }

    fn span(&self, a: u8, size: usize) -> Option<Span> {
        if a >= 31 {
            return None;
        }
        let from = self.registers[a as usize];
        let len = self.registers[a as usize + 1];
        if from as usize + len as usize > size {
            return None;
        }
        Some(Span { from, len })
    }

    fn act(&self, call: Call, size: usize) -> Option<Act> {
        Some(match call {
            Call::Nothing => Act::Nothing,
            Call::Ask { site, path, body } => Act::Ask {
                site: self.number(site)?,
                path: self.span(path, size)?,
                body: self.span(body, size)?,
            },
            Call::Say { window, site, bytes } => Act::Say {
                window: self.number(window)?,
                site: self.number(site)?,
                bytes: self.span(bytes, size)?,
            },
            Call::Keep { bytes } => Act::Keep { bytes: self.span(bytes, size)? },
            Call::Look => Act::Look,
            Call::Open { site, path } => Act::Open { site: self.number(site)?, path: self.span(path, size)? },
        })
    }

    fn assign(&mut self, a: u8, x: u32) -> Flow {
        if a >= 32 {
            return Flow::Faults;
        }
        self.registers[a as usize] = x;
        Flow::On
    }

    fn jump(&mut self, to: u32, count: usize) -> Flow {
        if to as usize >= count {
            return Flow::Faults;
        }
        self.next = to as usize;
        Flow::On
    }

    fn execute(&mut self, step: Step, count: usize, memory: &mut [u8]) -> Flow {
        match step {
            Step::Constant(a, n) => self.assign(a, n),
            Step::Move(a, b) => match self.number(b) {
                Some(x) => self.assign(a, x),
                None => Flow::Faults,
            },
            Step::Sum(a, b, c) => match self.pair(b, c) {
                Some((x, y)) => self.assign(a, x.wrapping_add(y)),
                None => Flow::Faults,
            },
            Step::Product(a, b, c) => match self.pair(b, c) {
                Some((x, y)) => self.assign(a, x.wrapping_mul(y)),
                None => Flow::Faults,
            },
            Step::Equal(a, b, c) => match self.pair(b, c) {
                Some((x, y)) => self.assign(a, u32::from(x == y)),
                None => Flow::Faults,
            },
            Step::Less(a, b, c) => match self.pair(b, c) {
                Some((x, y)) => self.assign(a, u32::from(x < y)),
                None => Flow::Faults,
            },
            Step::Jump(to) => self.jump(to, count),
            Step::JumpIf(a, to) => match self.number(a) {
                Some(0) => Flow::On,
                Some(_) => self.jump(to, count),
                None => Flow::Faults,
            },
            Step::Load(a, b) => {
                let Some(at) = self.number(b) else {
                    return Flow::Faults;
                };
                let Some(x) = memory.get(at as usize) else {
                    return Flow::Faults;
                };
                self.assign(a, u32::from(*x))
            }
            Step::Store(a, b) => {
                let Some((at, x)) = self.pair(a, b) else {
                    return Flow::Faults;
                };
                let Some(place) = memory.get_mut(at as usize) else {
                    return Flow::Faults;
                };
                *place = x as u8;
                Flow::On
            }
            Step::Wait(call) => match self.act(call, memory.len()) {
                Some(act) => Flow::Waits(act),
                None => Flow::Faults,
            },
        }
    }

    fn step(&mut self, script: &[Step], memory: &mut [u8]) -> Flow {
        let Some(step) = script.get(self.next) else {
            return Flow::Faults;
        };
        self.next += 1;
        self.execute(*step, script.len(), memory)
    }

    /// Up to so many steps, which are counted once for the whole run.
    fn run(&mut self, script: &[Step], memory: &mut [u8], most: u32) -> Flow {
        for i in 0..most {
            match self.step(script, memory) {
                Flow::On => {}
                stop => {
                    self.steps += u64::from(i) + 1;
                    return stop;
                }
            }
        }
        self.steps += u64::from(most);
        Flow::On
    }

    /// A turn that is told, with some bytes, what a window of site 0 said.
    pub fn turn(&mut self, script: &[Step], sites: u32, bytes: &[u8], memory: &mut [u8]) -> Outcome {
        match self.status {
            Status::Ended => return Outcome::Idle,
            Status::Running => {}
            Status::Waiting => {
                let len = bytes.len().min(memory.len()).min(4096);
                memory[..len].copy_from_slice(&bytes[..len]);
                self.registers[..4].copy_from_slice(&[4, len as u32, 0, 0]);
                self.status = Status::Running;
            }
        }
        match self.run(script, memory, 10_000) {
            Flow::On => Outcome::Paused,
            Flow::Waits(act) => {
                self.status = Status::Waiting;
                if allows(act, sites, memory) { Outcome::Did(act) } else { Outcome::Refused }
            }
            Flow::Faults => {
                self.status = Status::Ended;
                Outcome::Faulted
            }
        }
    }
}

/// Runs a page for so many turns: in how many something was done, and how many steps there were.
#[inline(never)]
pub fn play(page: &[u8], turns: u32, bytes: &[u8], memory: &mut [u8]) -> (u32, u64) {
    let Some(script) = read(page) else {
        return (u32::MAX, 0);
    };
    let mut machine = Machine::new();
    let mut done = 0;
    for _ in 0..turns {
        if let Outcome::Did(act) = machine.turn(&script, 16, bytes, memory) {
            std::hint::black_box(act);
            done += 1;
        }
    }
    (done, machine.steps)
}
