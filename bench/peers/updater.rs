//! A plain update of a flash that boots its factory application, with two threads: what `update` is measured beside. One
//! mutex holds the chip; a core that changes the flash asks the other one to park, and waits until it does. With the word
//! `sweep` in front, an update that is cut at each of its steps in turn, each time on a copy of the flash.

mod image;

use std::sync::{Condvar, Mutex, MutexGuard};

const SECTOR: usize = 4096;
const PAGE: usize = 65536;
const DATA: usize = 0x3F40_0000;
const CODE: usize = 0x400D_0000;

struct Row {
    kind: (u8, u8),
    offset: usize,
    size: usize,
    label: String,
    flags: u32,
}

fn number(bytes: &[u8]) -> usize {
    u32::from_le_bytes(bytes[..4].try_into().unwrap()) as usize
}

fn rows(flash: &[u8]) -> Vec<Row> {
    let rows = flash[0x8000..0x8C00].chunks_exact(32).take_while(|row| row[0] == 0xAA);
    rows.map(|row| Row {
        kind: (row[2], row[3]),
        offset: number(&row[4..]),
        size: number(&row[8..]),
        label: row[12..28].iter().take_while(|byte| **byte != 0).map(|byte| char::from(*byte)).collect(),
        flags: number(&row[28..]) as u32,
    })
    .collect()
}

/// The power is off.
#[derive(Debug)]
struct Off;

#[derive(Default)]
struct Chip {
    flash: Vec<u8>,
    steps: u64,
    cut: Option<u64>,
    tear: u64,
    off: bool,
    data: Vec<Option<usize>>,
    code: Vec<Option<usize>>,
    runs: Vec<(usize, usize)>,
    lines: Vec<String>,
    fetched: u64,
    owner: Option<usize>,
    asked: [bool; 2],
    parked: [bool; 2],
}

impl Chip {
    fn translate(&self, at: usize) -> Option<usize> {
        let (pages, from) = if at < CODE { (&self.data, DATA) } else { (&self.code, CODE) };
        let page = at.checked_sub(from)? / PAGE;
        Some((*pages.get(page)?)? * PAGE + at % PAGE)
    }

    fn fetch(&mut self, at: usize, length: usize) -> Option<Vec<u8>> {
        let bytes: Option<Vec<u8>> = (at..at + length).map(|at| self.flash.get(self.translate(at)?).copied()).collect();
        self.fetched += u64::from(bytes.is_some());
        bytes
    }

    /// Counts a step. The one in which the power goes off is begun, and torn.
    fn begin(&mut self) -> Result<(), Off> {
        self.powered()?;
        self.steps += 1;
        self.off = self.cut == Some(self.steps);
        Ok(())
    }

    fn powered(&self) -> Result<(), Off> {
        if self.off { Err(Off) } else { Ok(()) }
    }

    fn erase(&mut self, at: usize) -> Result<(), Off> {
        self.begin()?;
        let bytes = &mut self.flash[at..at + SECTOR];
        if self.off {
            bytes.iter_mut().enumerate().for_each(|(i, old)| *old |= mask(self.tear, i));
        } else {
            bytes.fill(0xFF);
        }
        self.powered()
    }

    fn program(&mut self, at: usize, new: &[u8]) -> Result<(), Off> {
        self.begin()?;
        let bytes = self.flash[at..at + new.len()].iter_mut().zip(new);
        if self.off {
            bytes.enumerate().for_each(|(i, (old, new))| *old &= new | mask(self.tear, i));
        } else {
            bytes.for_each(|(old, new)| *old &= new);
        }
        self.powered()
    }
}

/// The mask of a tear number for byte `i` of a step.
fn mask(tear: u64, i: usize) -> u8 {
    let inside = (tear >> 16 & 0xFFFF..tear >> 32 & 0xFFFF).contains(&(i as u64));
    (if inside { tear } else { tear >> 8 }) as u8
}

#[derive(Default)]
struct Bus {
    chip: Mutex<Chip>,
    changed: Condvar,
}

impl Bus {
    fn park<'a>(&'a self, mut chip: MutexGuard<'a, Chip>, core: usize) -> MutexGuard<'a, Chip> {
        while chip.asked[core] {
            chip.parked[core] = true;
            self.changed.notify_all();
            chip = self.changed.wait(chip).unwrap();
        }
        chip.parked[core] = false;
        chip
    }

    /// The chip, once this core is not asked to park.
    fn lock(&self, core: usize) -> MutexGuard<'_, Chip> {
        self.park(self.chip.lock().unwrap(), core)
    }

    /// Work in which the other core is parked.
    fn quiet<T>(&self, core: usize, work: impl FnOnce(&mut Chip) -> T) -> T {
        let mut chip = self.lock(core);
        while chip.owner.is_some() {
            chip = self.park(self.changed.wait(chip).unwrap(), core);
        }
        chip.owner = Some(core);
        chip.asked[1 - core] = true;
        self.changed.notify_all();
        while !chip.parked[1 - core] {
            chip = self.changed.wait(chip).unwrap();
        }
        let answer = work(&mut chip);
        chip.asked[1 - core] = false;
        chip.owner = None;
        self.changed.notify_all();
        answer
    }

    /// This core's work is over: it counts as parked.
    fn rest(&self, core: usize) {
        let mut chip = self.lock(core);
        chip.parked[core] = true;
        self.changed.notify_all();
    }
}

fn crc(sequence: u32) -> u32 {
    sequence.to_le_bytes().iter().fold(0, |crc, byte| {
        (0..8).fold(crc ^ u32::from(*byte), |crc, _| (crc >> 1) ^ (0xEDB8_8320 & (crc & 1).wrapping_neg()))
    }) ^ !0
}

fn entry(state: u32) -> Vec<u8> {
    let mut bytes = 1u32.to_le_bytes().to_vec();
    bytes.extend([0xFF; 20]);
    bytes.extend(state.to_le_bytes());
    bytes.extend(crc(1).to_le_bytes());
    bytes
}

/// A step in a quiet period of its own, and a look behind it.
fn step(bus: &Bus, work: impl FnOnce(&mut Chip) -> Result<(), Off>) -> Result<(), Off> {
    bus.quiet(0, work)?;
    bus.lock(0).fetch(DATA + 0x20, 4);
    Ok(())
}

fn rewrite(bus: &Bus, at: usize, state: u32) -> Result<(), Off> {
    step(bus, |chip| chip.erase(at))?;
    step(bus, |chip| chip.program(at, &entry(state)))
}

fn session(bus: &Bus, slot: usize, otadata: usize, new: &[u8]) -> Result<(), Off> {
    for at in (slot..slot + new.len()).step_by(SECTOR) {
        step(bus, |chip| chip.erase(at))?;
    }
    for (i, piece) in new.chunks(SECTOR).enumerate() {
        step(bus, |chip| {
            let mut pages = piece.chunks(256).enumerate();
            pages.try_for_each(|(j, page)| chip.program(slot + i * SECTOR + j * 256, page))
        })?;
    }
    let mut back = Vec::with_capacity(new.len());
    for at in (slot..slot + new.len()).step_by(SECTOR) {
        let end = (at + SECTOR).min(slot + new.len());
        bus.quiet(0, |chip| chip.powered().map(|()| back.extend_from_slice(&chip.flash[at..end])))?;
    }
    assert_eq!(image::check(&back), (new.len(), true, true), "a whole image");
    rewrite(bus, otadata, 0)
}

fn why(rows: &[Row], label: &str, offset: usize, length: usize, aligned: bool) -> Result<usize, &'static str> {
    let row = rows.iter().find(|row| row.label == label).ok_or("nolabel")?;
    if row.kind.0 == 0 || row.kind == (1, 0) {
        return Err("dangerous");
    }
    match (row.flags & 2 != 0, row.flags & 1 != 0, aligned, offset + length <= row.size) {
        (true, ..) => Err("readonly"),
        (_, true, ..) => Err("encrypted"),
        (_, _, false, _) => Err("unaligned"),
        (_, _, _, false) => Err("range"),
        _ => Ok(row.offset + offset),
    }
}

fn read_number(word: &str) -> usize {
    word.strip_prefix("0x").map_or_else(|| word.parse().unwrap(), |hex| usize::from_str_radix(hex, 16).unwrap())
}

fn act(bus: &Bus, rows: &[Row], words: &[&str], regs: &mut (usize, usize)) -> Result<String, Off> {
    let number = |i: usize| read_number(words[i]);
    Ok(match words[0] {
        "fetch" => {
            let (at, length) = (number(1), number(2));
            let mut chip = bus.lock(1);
            let served = regs.0 >> usize::from(at >= CODE) & 1 == 1;
            let mapped = (at..at + length).all(|at| chip.translate(at).is_some_and(|to| to < chip.flash.len()));
            match (mapped, served) {
                (false, _) => "refused unmapped".into(),
                (_, false) => "refused masked".into(),
                _ => {
                    chip.powered()?;
                    let bytes = chip.fetch(at, length).unwrap();
                    let hex: String = bytes.iter().map(|byte| format!("{byte:02X}")).collect();
                    format!("fetch 0x{at:08X} mask {} irq 0x{:08X} {hex}", regs.0, regs.1)
                }
            }
        }
        "mask" | "irq" => {
            *(if words[0] == "mask" { &mut regs.0 } else { &mut regs.1 }) = number(1);
            format!("set mask {} irq 0x{:08X}", regs.0, regs.1)
        }
        "map" => {
            let (page, n) = (number(2), number(3));
            let mut chip = bus.lock(1);
            let (pages, from) = if words[1] == "data" { (&mut chip.data, DATA) } else { (&mut chip.code, CODE) };
            match (0..=pages.len() - n.min(pages.len())).find(|i| pages[*i..].iter().take(n).filter(|p| p.is_none()).count() == n) {
                Some(first) => {
                    (0..n).for_each(|i| pages[first + i] = Some(page + i));
                    chip.runs.push((from + first * PAGE, n));
                    format!("mapped 0x{:08X}", from + first * PAGE)
                }
                None => "refused nopages".into(),
            }
        }
        "unmap" => {
            let at = number(1);
            let mut chip = bus.lock(1);
            match chip.runs.iter().position(|run| run.0 == at) {
                Some(i) => {
                    let (at, n) = chip.runs.remove(i);
                    let (pages, from) = if at < CODE { (&mut chip.data, DATA) } else { (&mut chip.code, CODE) };
                    pages[(at - from) / PAGE..][..n].fill(None);
                    format!("unmapped 0x{at:08X}")
                }
                None => "refused notmapped".into(),
            }
        }
        "write" => {
            let bytes: Vec<u8> =
                (0..words[3].len()).step_by(2).map(|i| u8::from_str_radix(&words[3][i..i + 2], 16).unwrap()).collect();
            match why(rows, words[1], number(2), bytes.len(), true) {
                Ok(at) => {
                    bus.quiet(1, |chip| chip.program(at, &bytes))?;
                    "done".into()
                }
                Err(why) => format!("refused {why}"),
            }
        }
        _ => {
            let (offset, length) = (number(2), number(3));
            match why(rows, words[1], offset, length, (offset | length) % SECTOR == 0) {
                Ok(at) => {
                    (at..at + length).step_by(SECTOR).try_for_each(|at| bus.quiet(1, |chip| chip.erase(at)))?;
                    "done".into()
                }
                Err(why) => format!("refused {why}"),
            }
        }
    })
}

fn work(bus: &Bus, rows: &[Row], script: &str) {
    let mut regs = (3, 1);
    let lines = script.lines().map(|line| line.split_ascii_whitespace().collect::<Vec<_>>());
    for (k, words) in lines.filter(|words| !words.is_empty() && !words[0].starts_with('#')).enumerate() {
        let Ok(line) = act(bus, rows, &words, &mut regs) else { break };
        bus.lock(1).lines.push(format!("worker {} {line}", k + 1));
    }
    bus.rest(1);
}

/// A leg of both cores: the pages of the application that runs are mapped as it begins.
fn leg(chip: Chip, slot: usize, rows: &[Row], script: &str, drive: impl FnOnce(&Bus) -> Result<(), Off> + Send) -> Chip {
    let length = number(&chip.flash[slot + 28..]);
    let mut chip = Chip { data: vec![None; 64], code: vec![None; 51], runs: Vec::new(), lines: Vec::new(), ..chip };
    (0..(0x20 + length).div_ceil(PAGE)).for_each(|i| chip.data[i] = Some(slot / PAGE + i));
    let bus = Bus { chip: Mutex::new(Chip { asked: [false; 2], parked: [false; 2], ..chip }), changed: Condvar::new() };
    std::thread::scope(|scope| {
        scope.spawn(|| work(&bus, rows, script));
        let _ = drive(&bus);
        bus.rest(0);
    });
    bus.chip.into_inner().unwrap()
}

/// What each update of a flash has in common.
struct Plan {
    rows: Vec<Row>,
    otadata: usize,
    factory: usize,
    slot: usize,
    new: Vec<u8>,
    script: String,
}

impl Plan {
    fn of(flash: &[u8], new: Vec<u8>, script: String) -> Plan {
        let rows = rows(flash);
        let place = |kind| rows.iter().find(|row| row.kind == kind).expect("a partition").offset;
        let (otadata, factory, slot) = (place((1, 0)), place((0, 0)), place((0, 0x10)));
        let (_, sum, digest) = image::check(&flash[factory..]);
        assert!(sum && digest, "the factory application is whole");
        Plan { rows, otadata, factory, slot, new, script }
    }

    /// Updates the flash of a chip. What a leg has shown is told when it is over; the one in which the power went off is
    /// the last.
    fn update(&self, chip: Chip, told: impl Fn(&str, &Chip)) -> Chip {
        let Plan { rows, otadata, factory, slot, new, script } = self;
        let chip = leg(chip, *factory, rows, script, |bus| session(bus, *slot, *otadata, new));
        told("session", &chip);
        if chip.off {
            return chip;
        }
        let (_, sum, digest) = image::check(&chip.flash[*slot..]);
        assert!(sum && digest, "the new application is whole");
        let mut chip = Chip { lines: Vec::new(), ..chip };
        let booted = chip.erase(*otadata).and_then(|()| chip.program(*otadata, &entry(1)));
        told("boot", &chip);
        if booted.is_err() {
            return chip;
        }
        let chip = leg(chip, *slot, rows, script, |bus| rewrite(bus, *otadata, 2));
        told("confirm", &chip);
        chip
    }
}

/// The length of the whole image that bytes begin with.
fn held(bytes: &[u8]) -> Option<usize> {
    if bytes[0] != 0xE9 || !(1..=16).contains(&bytes[1]) || bytes[12..14] != [0, 0] || bytes[23] != 1 {
        return None;
    }
    let mut end = 24;
    for _ in 0..bytes[1] {
        end += 8 + number(bytes.get(end + 4..end + 8)?);
    }
    bytes.get(..(end / 16 + 3) * 16)?;
    let (length, sum, digest) = image::check(bytes);
    (sum && digest).then_some(length)
}

/// What a flash boots: an entry that waits is given up, and applications are tried from the one that is named.
fn boots(flash: &[u8], rows: &[Row]) -> String {
    let at = rows.iter().find(|row| row.kind == (1, 0)).expect("OTA data").offset;
    let entries = [at, at + SECTOR].map(|at| (number(&flash[at..]) as u32, number(&flash[at + 24..]), number(&flash[at + 28..])));
    let valid = entries.into_iter().filter(|&(sequence, state, sum)| {
        !matches!(sequence, 0 | u32::MAX) && crc(sequence) as usize == sum && !matches!(state, 1 | 3 | 4)
    });
    let slots = rows.iter().filter(|row| row.kind.0 == 0 && row.kind.1 & 0xF0 == 0x10).count();
    let active = valid.map(|entry| entry.0).max().map(|sequence| (sequence as usize - 1) % slots);
    let slot = |i: usize| ((0, 0x10 + i as u8), format!("ota_{i}"));
    let mut tried: Vec<_> = active.into_iter().flat_map(|i| (0..=i).rev()).map(slot).collect();
    tried.push(((0, 0), "factory".into()));
    tried.extend((active.map_or(0, |i| i + 1)..slots).map(slot));
    tried.push(((0, 0x20), "test".into()));
    let mut whole = tried.iter().filter_map(|(kind, name)| {
        let row = rows.iter().find(|row| row.kind == *kind)?;
        Some(format!("boots {name} {}", held(&flash[row.offset..row.offset + row.size])?))
    });
    whole.next().expect("an application")
}

/// Cuts an update at each of its steps in turn: FLASH IMAGE SCRIPT, and perhaps --tear and a number.
fn sweep(words: &[String]) -> std::io::Result<()> {
    let [flash, image, script, option @ ..] = words else { panic!("sweep FLASH IMAGE SCRIPT [--tear T]") };
    let (flash, tear) = (std::fs::read(flash)?, option.get(1).map_or(0, |tear| read_number(tear) as u64));
    let plan = Plan::of(&flash, std::fs::read(image)?, std::fs::read_to_string(script)?);
    let run = |cut| plan.update(Chip { flash: flash.clone(), cut, tear, ..Chip::default() }, |_, _| ());
    let steps = run(None).steps;
    println!("steps {steps}");
    (1..=steps).for_each(|step| println!("cut {step} {}", boots(&run(Some(step)).flash, &plan.rows)));
    Ok(())
}

/// Updates a flash whose OTA data are blank: FLASH IMAGE SCRIPT OUT. The factory application has its data at 0x3F400020.
fn main() -> std::io::Result<()> {
    let words: Vec<String> = std::env::args().skip(1).collect();
    if words[0] == "sweep" {
        return sweep(&words[1..]);
    }
    let [flash, image, script, out] = words.as_slice() else { panic!("FLASH IMAGE SCRIPT OUT") };
    let flash = std::fs::read(flash)?;
    let plan = Plan::of(&flash, std::fs::read(image)?, std::fs::read_to_string(script)?);
    let before = std::cell::Cell::new(0);
    let chip = plan.update(Chip { flash, ..Chip::default() }, |name, chip| {
        println!("phase {name}");
        chip.lines.iter().for_each(|line| println!("{line}"));
        println!("steps {}\nend done", chip.steps - before.replace(chip.steps));
    });
    println!("{}", boots(&chip.flash, &plan.rows));
    let beside = format!("{out}.new");
    let mut file = std::fs::File::create(&beside)?;
    std::io::Write::write_all(&mut file, &chip.flash)?;
    file.sync_all()?;
    std::fs::rename(beside, out)
}
