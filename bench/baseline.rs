//! A plain planner to measure against: it reads a campaign file from standard input and prints the report, as `plan` does,
//! by the same algorithms, with nothing proved. Build it with `rustc -O baseline.rs`.

use std::fmt::Write as _;
use std::io::{self, Read, Write as _};

const SLOTS: u16 = 4032;
const CAPACITY_MAX: u32 = 4095;
const ROWS_MAX: usize = 64;
const RECORDS_MAX: u32 = 128;
const TEXT_MAX: u32 = 200;
const INPUT_MAX: u64 = 28_679;

// ---- The board ----

/// What a rule may know of a row.
#[derive(Clone, Copy)]
struct Entry {
    release: u16,
    deadline: u16,
    duration: u16,
    demand: u16,
}

impl Entry {
    fn early_end(self) -> u16 {
        self.release + self.duration
    }

    fn late_start(self) -> u16 {
        self.deadline - self.duration
    }

    fn work(self) -> u32 {
        u32::from(self.duration) * u32::from(self.demand)
    }

    fn mirrored(self) -> Entry {
        Entry { release: SLOTS - self.deadline, deadline: SLOTS - self.release, ..self }
    }
}

struct Sheet {
    capacity: u16,
    entries: Vec<Entry>,
}

impl Sheet {
    fn mirrored(&self) -> Sheet {
        Sheet { capacity: self.capacity, entries: self.entries.iter().map(|e| e.mirrored()).collect() }
    }

    fn releases(&self) -> Vec<u16> {
        self.entries.iter().map(|e| e.release).collect()
    }
}

struct Board {
    pairs: Vec<(u32, u32)>,
    /// The rows in their present windows.
    present: Sheet,
}

// ---- The campaign file ----

/// A number for the fault, its layer, the record and the byte.
struct Fault(u8, u8, u32, usize);

struct Reader<'a> {
    input: &'a [u8],
    at: usize,
    record: u32,
}

impl Reader<'_> {
    fn number(&mut self) -> Result<u32, Fault> {
        let begin = self.at;
        let mut value = 0;
        for group in 0..3 {
            let Some(&byte) = self.input.get(self.at) else {
                return Err(Fault(11, 1, self.record, begin));
            };
            self.at += 1;
            value |= u32::from(byte & 0x7f) << (7 * group);
            if byte & 0x80 == 0 {
                return Ok(value);
            }
        }
        Err(Fault(12, 1, self.record, begin))
    }

    fn skip_text(&mut self) -> Result<(), Fault> {
        let begin = self.at;
        let length = self.number()?;
        if length > TEXT_MAX {
            return Err(Fault(14, 2, self.record, begin));
        }
        if length as usize > self.input.len() - self.at {
            return Err(Fault(15, 2, self.record, begin));
        }
        self.at += length as usize;
        Ok(())
    }
}

/// Adds a row, or says which refusal keeps it off the board.
fn enter(board: &mut Board, [profile, bearer, release, deadline, duration, demand]: [u32; 6]) -> Result<(), u8> {
    if profile > 255 {
        return Err(2);
    }
    if !(5..=15).contains(&bearer) {
        return Err(3);
    }
    if !(1..=u32::from(SLOTS)).contains(&duration) {
        return Err(4);
    }
    if !(1..=u32::from(board.present.capacity)).contains(&demand) {
        return Err(5);
    }
    if deadline > u32::from(SLOTS) || release + duration > deadline {
        return Err(6);
    }
    if board.pairs.contains(&(profile, bearer)) {
        return Err(7);
    }
    if board.pairs.len() == ROWS_MAX {
        return Err(8);
    }
    board.pairs.push((profile, bearer));
    board.present.entries.push(Entry {
        release: release as u16,
        deadline: deadline as u16,
        duration: duration as u16,
        demand: demand as u16,
    });
    Ok(())
}

fn load(input: &[u8]) -> Result<Board, Fault> {
    let mut reader = Reader { input, at: 0, record: 0 };
    let capacity = reader.number()?;
    if !(1..=CAPACITY_MAX).contains(&capacity) {
        return Err(Fault(1, 3, 0, 0));
    }
    let mut board = Board { pairs: Vec::new(), present: Sheet { capacity: capacity as u16, entries: Vec::new() } };
    let begin = reader.at;
    let count = reader.number()?;
    if count > RECORDS_MAX {
        return Err(Fault(16, 3, 0, begin));
    }
    for record in 1..=count {
        reader.record = record;
        let begin = reader.at;
        match reader.number()? {
            0 => reader.skip_text()?,
            1 => {
                let mut fields = [0; 6];
                for field in &mut fields {
                    *field = reader.number()?;
                }
                reader.skip_text()?;
                enter(&mut board, fields).map_err(|refusal| Fault(refusal, 3, record, begin))?;
            }
            _ => return Err(Fault(13, 2, record, begin)),
        }
    }
    if reader.at < input.len() {
        return Err(Fault(17, 3, count, reader.at));
    }
    Ok(board)
}

// ---- Rules ----

/// An interval that is too full, or else the earliest start of each entry, at its place.
struct Asked {
    evidence: Option<(u16, u16)>,
    starts: Vec<u16>,
}

type Rule = fn(&Sheet) -> Asked;

fn first(found: Option<(u16, u16)>, interval: (u16, u16)) -> Option<(u16, u16)> {
    Some(found.map_or(interval, |before| before.min(interval)))
}

/// T: the usage of every slot by the parts of entries that cannot move, and the first room of each entry beside the others.
fn time_table(sheet: &Sheet) -> Asked {
    let mut line = [0u32; SLOTS as usize];
    for e in &sheet.entries {
        if e.late_start() < e.early_end() {
            for usage in &mut line[usize::from(e.late_start())..usize::from(e.early_end())] {
                *usage += u32::from(e.demand);
            }
        }
    }
    let capacity = u32::from(sheet.capacity);
    let peak = line.iter().copied().max().unwrap_or(0);
    let evidence = if peak > capacity {
        line.iter().position(|&usage| usage > capacity).map(|t| (t as u16, t as u16 + 1))
    } else {
        None
    };
    let start = |e: &Entry| {
        if peak + u32::from(e.demand) <= capacity { e.release } else { first_room(capacity, *e, &line) }
    };
    Asked { evidence, starts: sheet.entries.iter().map(start).collect() }
}

fn first_room(capacity: u32, e: Entry, line: &[u32]) -> u16 {
    let last = e.late_start();
    let mut from = e.release;
    for t in e.release..e.deadline {
        if t >= from + e.duration {
            break;
        }
        let own = t >= last && t < e.early_end();
        let usage = line[usize::from(t)] + if own { 0 } else { u32::from(e.demand) };
        if usage > capacity {
            if t >= last {
                return last + 1;
            }
            from = t + 1;
        }
    }
    from
}

/// E: for each deadline, what is filled up to it from each release on; one running sum and one running maximum.
fn elastic(sheet: &Sheet) -> Asked {
    let capacity = u32::from(sheet.capacity);
    let mut by_release = sheet.entries.clone();
    let mut places: Vec<usize> = (0..by_release.len()).collect();
    places.sort_by_key(|&k| sheet.entries[k].release);
    for (e, &k) in by_release.iter_mut().zip(&places) {
        *e = sheet.entries[k];
    }
    let mut evidence = None;
    let mut ends: Vec<u32> = by_release.iter().map(|e| u32::from(e.early_end())).collect();
    for by in &sheet.entries {
        let t2 = by.deadline;
        let room = capacity * u32::from(t2);
        let ending = |e: &Entry| if e.deadline <= t2 { e.work() } else { 0 };
        let mut rest: u32 = by_release.iter().map(ending).sum();
        let mut inside = rest;
        let mut release = 0;
        let mut highest = 0;
        for (e, end) in by_release.iter().zip(&mut ends) {
            if e.release > release {
                inside = rest;
                release = e.release;
            }
            let level = capacity * u32::from(e.release) + inside;
            if e.release < t2 && level > room {
                evidence = first(evidence, (e.release, t2));
            }
            highest = highest.max(level);
            let total = highest + e.work();
            if t2 < e.deadline && total > room {
                *end = (*end).max(total.div_ceil(capacity));
            }
            rest -= ending(e);
        }
    }
    let mut starts = sheet.releases();
    if evidence.is_none() {
        for (&k, &end) in places.iter().zip(&ends) {
            starts[k] = end as u16 - sheet.entries[k].duration;
        }
    }
    Asked { evidence, starts }
}

/// How the energies of all entries rise as one end of an interval moves away from the other: not at all up to an offset, then
/// by the demand a slot over a length, then no more.
struct Ramps {
    count: usize,
    top: u32,
    offsets: [u16; ROWS_MAX],
    lengths: [u16; ROWS_MAX],
    demands: [u16; ROWS_MAX],
}

impl Ramps {
    fn new() -> Ramps {
        Ramps { count: 0, top: 0, offsets: [0; ROWS_MAX], lengths: [0; ROWS_MAX], demands: [0; ROWS_MAX] }
    }

    fn push(&mut self, offset: u16, length: u16, demand: u16) {
        if length > 0 {
            self.offsets[self.count] = offset;
            self.lengths[self.count] = length;
            self.demands[self.count] = demand;
            self.count += 1;
            self.top += u32::from(length) * u32::from(demand);
        }
    }

    fn from(entries: &[Entry], t1: u16) -> Ramps {
        let mut ramps = Ramps::new();
        for e in entries {
            ramps.push(e.late_start().saturating_sub(t1), left_part(*e, t1), e.demand);
        }
        ramps
    }

    fn to(entries: &[Entry], t2: u16) -> Ramps {
        let mut ramps = Ramps::new();
        for e in entries {
            ramps.push(t2.saturating_sub(e.early_end()), right_part(*e, t2), e.demand);
        }
        ramps
    }

    /// Past the last ramp nothing climbs, so that whole groups of eight can be added.
    fn climbed(&self, far: u16) -> u32 {
        let whole = self.count.next_multiple_of(8);
        let places = self.offsets[..whole].iter().zip(&self.lengths[..whole]).zip(&self.demands[..whole]);
        places.map(|((&offset, &length), &demand)| u32::from(demand) * u32::from(far.saturating_sub(offset).min(length))).sum()
    }
}

fn left_part(e: Entry, t1: u16) -> u16 {
    e.duration.saturating_sub(t1.saturating_sub(e.release))
}

fn right_part(e: Entry, t2: u16) -> u16 {
    e.duration.saturating_sub(e.deadline.saturating_sub(t2))
}

/// The leeway of an entry at t2: its demand in the slots that it runs after t2 where it ends as late as it can, beyond those
/// where it starts as early as it can. With as much slack, an interval that closes at t2 does not move it.
fn leeway(e: Entry, t2: u16) -> u32 {
    let after_late = e.duration - right_part(e, t2);
    let after_early = e.early_end().saturating_sub(t2);
    u32::from(e.demand) * u32::from(after_late.saturating_sub(after_early))
}

fn reach_at(movers: &[(usize, Entry)], t2: u16) -> u32 {
    movers.iter().map(|&(_, e)| leeway(e, t2)).max().unwrap_or(0)
}

/// The greatest leeway at the deadline, the early end and the late start of an entry.
#[derive(Clone, Copy)]
struct Reach {
    deadline: u32,
    early_end: u32,
    late_start: u32,
}

/// A pass over all candidates of S.
struct Survey<'a> {
    capacity: u32,
    entries: &'a [Entry],
    /// The entries that have a slot to spare, with their places.
    movers: Vec<(usize, Entry)>,
    reaches: Vec<Reach>,
    /// As great a leeway as any entry has anywhere.
    most: u32,
    evidence: Option<(u16, u16)>,
    starts: Vec<u16>,
    /// The points that have been gone through.
    begun: [bool; SLOTS as usize + 1],
    closed: [bool; SLOTS as usize + 1],
}

impl<'a> Survey<'a> {
    fn new(sheet: &'a Sheet) -> Survey<'a> {
        let entries = &sheet.entries[..];
        let movers: Vec<(usize, Entry)> = entries.iter().copied().enumerate().filter(|(_, e)| e.early_end() < e.deadline).collect();
        let around = |e: &Entry| Reach {
            deadline: reach_at(&movers, e.deadline),
            early_end: reach_at(&movers, e.early_end()),
            late_start: reach_at(&movers, e.late_start()),
        };
        let widest = |e: &Entry| u32::from(e.demand) * u32::from(e.duration.min(e.deadline - e.early_end()));
        Survey {
            capacity: u32::from(sheet.capacity),
            entries,
            reaches: entries.iter().map(around).collect(),
            most: entries.iter().map(widest).max().unwrap_or(0),
            movers,
            evidence: None,
            starts: sheet.releases(),
            begun: [false; SLOTS as usize + 1],
            closed: [false; SLOTS as usize + 1],
        }
    }

    /// Inlined by request, which makes this program faster.
    #[inline(always)]
    fn visit(&mut self, ramps: &Ramps, reach: u32, t1: u16, t2: u16) {
        if t1 >= t2 || t2 > SLOTS {
            return;
        }
        let room = self.capacity * u32::from(t2 - t1);
        if room >= ramps.top + reach {
            return;
        }
        let energy = ramps.climbed(t2 - t1);
        if energy > room {
            self.evidence = first(self.evidence, (t1, t2));
        } else if room - energy < reach {
            self.raise(t1, t2, room - energy);
        }
    }

    /// Kept out of the loops over candidates: few come here, and the loops stay small.
    #[inline(never)]
    fn raise(&mut self, t1: u16, t2: u16, slack: u32) {
        for &(k, e) in &self.movers {
            if e.release < t2 && t2 < e.deadline {
                let early = (t2 - t1).min(left_part(e, t1));
                let least = early.min(right_part(e, t2));
                let demand = u32::from(e.demand);
                let gain = demand * u32::from(early - least);
                if gain > slack {
                    let end = u32::from(t2) + (gain - slack).div_ceil(demand);
                    self.starts[k] = self.starts[k].max((end as u16).saturating_sub(e.duration));
                }
            }
        }
    }

    fn begin(&mut self, t1: u16) {
        if std::mem::replace(&mut self.begun[usize::from(t1)], true) {
            return;
        }
        let ramps = Ramps::from(self.entries, t1);
        for (place, e) in self.entries.iter().enumerate() {
            let reach = self.reaches[place];
            self.visit(&ramps, reach.deadline, t1, e.deadline);
            if e.early_end() != e.deadline {
                self.visit(&ramps, reach.early_end, t1, e.early_end());
            }
            self.visit(&ramps, reach.late_start, t1, e.late_start());
            self.visit(&ramps, self.most, t1, (e.release + e.deadline).saturating_sub(t1));
        }
    }

    fn close(&mut self, reach: u32, t2: u16) {
        if std::mem::replace(&mut self.closed[usize::from(t2)], true) {
            return;
        }
        let ramps = Ramps::to(self.entries, t2);
        for e in self.entries {
            if let Some(t1) = (e.release + e.deadline).checked_sub(t2) {
                self.visit(&ramps, reach, t1, t2);
            }
        }
    }
}

/// S: one energy sum for each candidate, from which evidence and all earliest starts follow.
fn shift(sheet: &Sheet) -> Asked {
    let mut survey = Survey::new(sheet);
    for (place, e) in sheet.entries.iter().enumerate() {
        let reach = survey.reaches[place];
        survey.begin(e.release);
        survey.begin(e.late_start());
        survey.begin(e.early_end());
        survey.close(reach.deadline, e.deadline);
        survey.close(reach.early_end, e.early_end());
        survey.close(reach.late_start, e.late_start());
    }
    let starts = if survey.evidence.is_some() { sheet.releases() } else { survey.starts };
    Asked { evidence: survey.evidence, starts }
}

// ---- Apply and sweep ----

enum Effect {
    Overfull(u16, u16),
    Squeezed(usize),
    Narrowed,
    Quiet,
}

fn apply(sheet: &mut Sheet, rule: Rule) -> Effect {
    let asked = rule(sheet);
    if let Some((t1, t2)) = asked.evidence {
        return Effect::Overfull(t1, t2);
    }
    let mirrored = rule(&sheet.mirrored());
    let figures = asked.starts.iter().zip(&mirrored.starts);
    let windows: Vec<(u16, u16)> = sheet
        .entries
        .iter()
        .zip(figures)
        .map(|(e, (&start, &back))| (e.release.max(start), SLOTS - back.max(SLOTS - e.deadline)))
        .collect();
    if let Some(row) = sheet.entries.iter().zip(&windows).position(|(e, w)| w.0 + e.duration > w.1) {
        return Effect::Squeezed(row);
    }
    let mut effect = Effect::Quiet;
    for (e, &(release, deadline)) in sheet.entries.iter_mut().zip(&windows) {
        if (e.release, e.deadline) != (release, deadline) {
            (e.release, e.deadline) = (release, deadline);
            effect = Effect::Narrowed;
        }
    }
    effect
}

/// The verdict, in words, with the number of rounds.
fn sweep(sheet: &mut Sheet) -> String {
    let rules: [(char, Rule); 3] = [('T', time_table), ('E', elastic), ('S', shift)];
    let mut rounds = 0;
    loop {
        rounds += 1;
        let mut quiet = true;
        for (letter, rule) in rules {
            match apply(sheet, rule) {
                Effect::Overfull(t1, t2) => return format!("OVERFULL {letter} {t1} {t2} {rounds}"),
                Effect::Squeezed(row) => return format!("SQUEEZED {letter} {row} {rounds}"),
                Effect::Narrowed => quiet = false,
                Effect::Quiet => {}
            }
        }
        if quiet {
            return format!("SETTLED {rounds}");
        }
    }
}

fn report(board: &Board, verdict: &str) -> String {
    let mut text = format!("C {} ROWS {}\n", board.present.capacity, board.pairs.len());
    for ((profile, bearer), e) in board.pairs.iter().zip(&board.present.entries) {
        let _ = writeln!(text, "{profile} {bearer} {} {}", e.release, e.deadline);
    }
    text + verdict + "\n"
}

fn main() -> io::Result<()> {
    let mut input = Vec::new();
    io::stdin().take(INPUT_MAX).read_to_end(&mut input)?;
    let text = match load(&input) {
        Ok(mut board) => {
            let verdict = sweep(&mut board.present);
            report(&board, &verdict)
        }
        Err(Fault(number, layer, record, byte)) => format!("REFUSED {number} {layer} {record} {byte}\n"),
    };
    io::stdout().write_all(text.as_bytes())
}
