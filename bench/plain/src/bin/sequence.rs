//! The cabinet on the desk: a site sheet on standard input, a line `run`, then one event a line; on standard output what the unit shows.
//! Each tick and load is made by both units, the one that is checked whole and the one that runs on, and the two must agree.

use plain::{Light, Place, Refused, Running, Stage, Then, Unit, Walker};
use std::io::{self, Read, Write};

type Shown = (&'static str, u16, &'static str);

fn shown(unit: &Unit) -> Shown {
    let walker = |phase: u16, walker: Walker| {
        let p = unit.sheet.phase(phase).copied().unwrap_or_default();
        match walker {
            _ if p.mode == 0 => "-",
            Walker::Walk(_) => "walk",
            Walker::Clearance(k) if k < p.clearance.into() => "clearance",
            Walker::Clearance(_) => "-",
        }
    };
    let named = |place: Place, normal, dwell| if place == Place::Dwell { dwell } else { normal };
    match unit.stage {
        Stage::TrackGreen => ("track-green", 0, "-"),
        Stage::TrackYellow { .. } => ("track-yellow", 0, "-"),
        Stage::TrackRed { .. } => ("track-red", 0, "-"),
        Stage::Open { place, phase, walk, .. } => {
            (named(place, "phase-green", "dwell-green"), phase, walker(phase, Walker::Walk(walk)))
        }
        Stage::Ending { phase, then, light, walker: w } => {
            let place = if matches!(then, Then::Normal(_)) { Place::Normal } else { Place::Dwell };
            let stage = match light {
                Light::Green(_) => named(place, "phase-green", "dwell-green"),
                Light::Yellow(_) => named(place, "phase-yellow", "dwell-yellow"),
                Light::Red(_) => named(place, "phase-red", "dwell-red"),
            };
            (stage, phase, walker(phase, w))
        }
        Stage::ClearanceGreen { .. } => ("clearance-green", 0, "-"),
        Stage::ClearanceYellow { .. } => ("clearance-yellow", 0, "-"),
        Stage::ClearanceRed { .. } => ("clearance-red", 0, "-"),
        Stage::AllRed => ("dwell", 0, "-"),
    }
}

struct Bench {
    unit: Unit,
    running: Running,
    ticks: u64,
    out: Vec<u8>,
}

impl Bench {
    fn say(&mut self, (number, line): Refused) {
        let (stage, phase, walker) = shown(&self.unit);
        writeln!(self.out, "{},{stage},{phase},{walker},{number},{line}", self.ticks).unwrap();
    }

    fn agree(&self) {
        assert_eq!(&self.unit, self.running.unit());
    }

    fn tick(&mut self, end: Option<u32>, call: bool) {
        let before = shown(&self.unit);
        let answer = plain::tick(&mut self.unit, end, call);
        assert_eq!(answer, self.running.tick(end, call));
        self.agree();
        self.ticks += 1;
        if answer > 0 || before != shown(&self.unit) {
            self.say((answer, 0));
        }
    }

    fn load(&mut self, text: &[u8]) {
        let answer = plain::read(text).and_then(|sheet| {
            let answer = plain::unit::load(&mut self.unit, sheet);
            assert_eq!(answer, self.running.load(sheet));
            answer
        });
        self.agree();
        self.say(answer.err().unwrap_or((0, 0)));
    }
}

fn number(text: &[u8]) -> Option<u32> {
    let digits = (1..=6).contains(&text.len()) && text.iter().all(u8::is_ascii_digit);
    let plain = text.len() == 1 || text.first() != Some(&b'0');
    if digits && plain {
        std::str::from_utf8(text).ok()?.parse().ok()
    } else {
        None
    }
}

enum Event {
    Ticks(bool, u32),
    End(bool, u32),
    Load,
}

fn event(line: &[u8]) -> Option<Event> {
    if line == b"load" {
        return Some(Event::Load);
    }
    let (key, rest) = line.split_at(line.iter().position(|b| *b == b'=')? + 1);
    let mut numbers = rest.split(|b| *b == b',').map(number);
    let call = match numbers.next()?? {
        0 => false,
        1 => true,
        _ => return None,
    };
    let second = numbers.next();
    if numbers.next().is_some() {
        return None;
    }
    match (key, second) {
        (b"tick=", None) => Some(Event::Ticks(call, 1)),
        (b"tick=", Some(Some(next))) if next <= 255 => Some(Event::End(call, next)),
        (b"ticks=", Some(Some(count))) if count > 0 => Some(Event::Ticks(call, count)),
        _ => None,
    }
}

fn run(input: &[u8]) -> Vec<u8> {
    let lines: Vec<&[u8]> = input.split_inclusive(|b| *b == b'\n').collect();
    let head = lines.iter().position(|l| *l == b"run\n").unwrap_or(lines.len());
    let sheet = match plain::read(&lines[..head].concat()) {
        Err((number, line)) => return format!("refused={number},{line}\n").into_bytes(),
        Ok(sheet) => sheet,
    };
    let running = Running::start(sheet).expect("a sheet that was read is accepted");
    let mut bench = Bench { unit: Unit::start(sheet).0, running, ticks: 0, out: Vec::new() };
    bench.say((0, 0));
    let mut at = head + 1;
    while at < lines.len() {
        match lines[at].strip_suffix(b"\n").and_then(event) {
            Some(Event::Ticks(call, count)) => (0..count).for_each(|_| bench.tick(None, call)),
            Some(Event::End(call, next)) => bench.tick(Some(next), call),
            Some(Event::Load) if lines[at..].contains(&&b"done\n"[..]) => {
                let start = at + 1;
                while lines[at] != b"done\n" {
                    at += 1;
                }
                bench.load(&lines[start..at].concat());
            }
            _ => {
                writeln!(bench.out, "refused=1,{}", at + 1).unwrap();
                break;
            }
        }
        at += 1;
    }
    bench.out
}

fn main() -> io::Result<()> {
    let mut input = Vec::new();
    io::stdin().lock().take(65537).read_to_end(&mut input)?;
    let out = if input.len() > 65536 { b"refused=1,0\n".to_vec() } else { run(&input) };
    io::stdout().write_all(&out)
}
