//! Chooses the recorded list: files made by hand, then generated ones, each time
//! the one that shows most that is new for its bytes.
use crate::against::Side;
use crate::batch;
use crate::features::{features, Features};
use crate::hand::{self, Made};
use crate::judge::judge;
use crate::listing::Source::{Rules, Rust};
use crate::make::Plan;
use crate::rules::Mode;
use std::collections::HashMap;
use std::path::Path;

/// How many files to look at, and how many bytes the three recorded files may take.
pub struct Limits {
    pub seed: u64,
    pub count: u64,
    pub bytes: usize,
}

/// Longer files than this are recorded only when made by hand.
const LONG: usize = 1800;

struct Candidate {
    made: Made,
    shows: Features,
    cost: usize,
}

impl Candidate {
    fn new(made: Made) -> Candidate {
        let shows = features(&made.file);
        let cost = cost(&made);
        Candidate { made, shows, cost }
    }

    /// New weight for each byte, in thousandths.
    fn gain(&self, seen: &Seen) -> u64 {
        let wanted = |f: &(&u64, &(u32, u32))| seen.0.get(f.0).is_none_or(|n| *n < f.1 .1);
        let new: u32 = self.shows.iter().filter(wanted).map(|f| f.1 .0).sum();
        u64::from(new) * 1000 / self.cost as u64
    }
}

/// How many chosen files show a feature.
#[derive(Default)]
struct Seen(HashMap<u64, u32>);

impl Seen {
    fn add(&mut self, shows: &Features) {
        shows.keys().for_each(|f| *self.0.entry(*f).or_default() += 1);
    }
}

/// Bytes in the three files together.
fn cost(made: &Made) -> usize {
    made.file.len() + 4 + Rules(Mode::Ordinary).answer(&made.file, None).len() + 3 + made.how.len() + 8
}

fn generated(plan: Plan, count: u64) -> Vec<Candidate> {
    let made = |i| Made { how: format!("make {}", plan.words(i)), file: plan.file(i) };
    let wanted = |m: &Made| m.file.len() <= LONG && judge(&m.file).is_some() == plan.damage;
    (0..count).map(made).filter(wanted).map(Candidate::new).collect()
}

/// The best first; a gain only falls, so an old one bounds the new one.
fn chosen(mut from: Vec<Candidate>, seen: &mut Seen, room: &mut usize, out: &mut Vec<Made>) {
    let mut gains: Vec<u64> = from.iter().map(|c| c.gain(seen)).collect();
    loop {
        let mut best: Option<usize> = None;
        let mut order: Vec<usize> = (0..from.len()).filter(|i| gains[*i] > 0).collect();
        order.sort_by_key(|i| std::cmp::Reverse((gains[*i], std::cmp::Reverse(*i))));
        for i in order {
            if best.is_some_and(|b| gains[b] >= gains[i]) {
                break;
            }
            gains[i] = from[i].gain(seen);
            if gains[i] > best.map_or(0, |b| gains[b]) {
                best = Some(i);
            }
        }
        let Some(best) = best else { return };
        if from[best].cost > *room {
            return;
        }
        *room -= from[best].cost;
        seen.add(&from[best].shows);
        gains[best] = 0;
        let made = &mut from[best].made;
        out.push(Made { how: std::mem::take(&mut made.how), file: std::mem::take(&mut made.file) });
    }
}

fn choose(limits: &Limits) -> Vec<Made> {
    let mut out = hand::files();
    let used: usize = out.iter().map(cost).sum();
    let mut room = limits.bytes.saturating_sub(used);
    let mut seen = Seen::default();
    out.iter().for_each(|m| seen.add(&features(&m.file)));
    let plan = Plan { seed: limits.seed, ..Plan::default() };
    // Refused files are short; a fifth of the room is plenty for them.
    let mut part = room / 5;
    room -= part;
    let mut damaged = Vec::new();
    for dialect in [false, true] {
        damaged.extend(generated(Plan { damage: true, dialect, ..plan }, limits.count));
    }
    chosen(damaged, &mut seen, &mut part, &mut out);
    let mut trees = Vec::new();
    for (any_order, shared) in [(false, false), (true, false), (false, true), (true, true)] {
        for dialect in [false, true] {
            trees.extend(generated(Plan { any_order, shared, dialect, ..plan }, limits.count));
        }
    }
    chosen(trees, &mut seen, &mut room, &mut out);
    out
}

/// The Rust's list with what it doesn't have by the rules, which must agree on all else.
fn whole_list(made: &Made) -> Result<String, String> {
    let [rust, rules] = [Rust, Rules(Mode::Ordinary)].map(|source| source.answer(&made.file, None));
    if !Side::RUST.agrees(&made.file, &rust, &rules) {
        return Err(format!("{}: the Rust and document 01's rules differ:\n{rust}and\n{rules}", made.how));
    }
    Ok(rules + "--\n")
}

/// Writes recorded.bin, recorded.list and recorded.txt.
pub fn write(limits: &Limits, folder: &Path) -> Result<String, String> {
    let all = choose(limits);
    let files: Vec<Vec<u8>> = all.iter().map(|m| m.file.clone()).collect();
    let lists: String = all.iter().map(whole_list).collect::<Result<_, _>>()?;
    let how: String = all.iter().enumerate().map(|(i, m)| format!("{i} {}\n", m.how)).collect();
    let put = |name: &str, bytes: &[u8]| {
        std::fs::write(folder.join(name), bytes).map_err(|e| format!("{name}: {e}"))
    };
    put("recorded.bin", &batch::join(&files))?;
    put("recorded.list", lists.as_bytes())?;
    put("recorded.txt", how.as_bytes())?;
    Ok(format!("{} files recorded\n", all.len()))
}
