//! Times the proved listing against the Rust crate's over the same tables, in one process, by turns.
//!
//!     bench [--once | --ours] VOLUMES [NAME ..]
//!
//! VOLUMES is a folder with tables of real volumes (*.tab). A NAME is one of them whose entries the Rust reads or joins
//! otherwise (bench/joined tells them): it is timed for ours alone.
//!
//! With --once each table is listed once by both, for an instruction counter; with --ours by ours alone, in 20,000
//! passes, for a profiler. Neither times anything.
mod lookups;
mod made;
mod ours;
mod theirs;

use ntfs_relaxed::Ntfs;
use std::collections::BTreeMap;
use std::hint::black_box;
use std::panic::{catch_unwind, AssertUnwindSafe};
use std::time::Instant;
use theirs::{Room, Volume};

const ROUNDS: usize = 41;
/// Bytes for a listing, more than any of these has.
const ROOM: usize = 1 << 20;
/// How long each turn of one table lasts, in nanoseconds: long enough for the clock, short enough that a turn is rarely
/// disturbed.
const TURN: f64 = 60_000.0;

struct Case {
    name: String,
    /// The table that both list: it tells no run.
    table: Vec<u8>,
    volume: Volume,
    ntfs: Ntfs,
    reads: f64,
    /// The table as it came, and how many lines of runs its listing has.
    with_runs: Vec<u8>,
    runs: f64,
}

/// A table that is not timed beside the Rust, and why. One whose entries the Rust reads or joins otherwise tells no run
/// either.
struct Left {
    name: String,
    table: Vec<u8>,
    why: &'static str,
}

/// Why a table is left that 27 or 28 decides, or whose entries the Rust reads or joins otherwise: it is timed for ours
/// alone.
const DECIDED: &str = "27, 28";
const OTHERWISE: &str = "padded or joined";

/// The middle times of one listing: ours, the Rust's, and the Rust's from the table's bytes on.
#[derive(Clone, Copy)]
struct Times([f64; 3]);

/// The listing without its count of reads, and the count.
fn apart(text: &[u8]) -> (String, f64) {
    let text = std::str::from_utf8(text).expect("a listing is ASCII");
    let (before, count) = text.rsplit_once(" reads ").unwrap_or((text, "0"));
    (format!("{before}\n"), count.trim().parse().unwrap_or(0.0))
}

fn is_run(line: &str) -> bool {
    line.starts_with("run ") || line.starts_with("hole ")
}

/// The record and the place of the run bytes that a line tells, if they are some: of a value, or of a part.
fn told_at(line: &str) -> Option<(u64, usize)> {
    let words: Vec<_> = line.split(' ').collect();
    match words[..] {
        ["part", record, _, _, at, bytes] | ["attr", record, .., "runs", at, bytes, "size", _] if bytes != "0" => {
            Some((record.parse().unwrap(), at.parse().unwrap()))
        }
        _ => None,
    }
}

/// The same table with a 0 in front of all run bytes that its listing tells. So no run is told: the Rust's listing has
/// none, and what is compared is the walk.
fn without_runs(table: &[u8], text: &str) -> Vec<u8> {
    let mut quiet = table.to_vec();
    for (record, at) in text.lines().filter_map(told_at) {
        quiet[theirs::place_of(table, record) + at] = 0;
    }
    quiet
}

/// Why the Rust can't be held to a listing: it goes on where 27 or 28 refuses, has no check 7, opens the list that 13
/// refuses, and has no table.
fn beyond(text: &str) -> Option<&'static str> {
    let ends = [
        (" 27\n", DECIDED),
        (" 28\n", DECIDED),
        (" 7\n", "7"),
        (" 13\n", "13"),
        (" 21\n", "21"),
    ];
    let said = |end| ["refused", "stopped"].iter().any(|word| text.contains(&format!("{word}{end}")));
    ends.iter().find(|(end, _)| said(end)).map(|(_, why)| *why)
}

/// A table to be timed, where both list it alike, or why it is left out. Any other difference ends the program.
fn case(name: &str, table: Vec<u8>, out: &mut [u8], room: &mut Room) -> Result<Case, Left> {
    let end = ours::list(&table, out);
    let (text, _) = apart(&out[..end]);
    if let Some(why) = beyond(&text) {
        return Err(Left { name: name.into(), table, why });
    }
    let (runs, others): (Vec<_>, Vec<_>) = text.lines().partition(|line| is_run(line));
    let (with_runs, runs, others) = (table, runs.len() as f64, others.join("\n") + "\n");
    let table = without_runs(&with_runs, &text);
    let end = ours::list(&table, out);
    let (text, reads) = apart(&out[..end]);
    assert_eq!(text, others, "{name}: without its runs the listing is another");
    let mut volume = Volume::of(&table).expect("a table that passes 21");
    let ntfs = volume.ntfs();
    if catch_unwind(AssertUnwindSafe(|| theirs::list(&ntfs, &mut volume, room))).is_err() {
        return Err(Left { name: name.into(), table, why: "panic" });
    }
    let told = String::from_utf8_lossy(room.out.told());
    assert_eq!(text, told, "{name}: ours and the Rust's listing differ");
    Ok(Case { name: name.into(), table, volume, ntfs, reads, with_runs, runs })
}

/// The tables of a folder that both list alike, and those that ours alone lists.
fn real(folder: &str, joined: &[String], out: &mut [u8], room: &mut Room) -> (Vec<Case>, Vec<Left>) {
    let mut names: Vec<_> = std::fs::read_dir(folder).expect(folder).map(|e| e.unwrap().path()).collect();
    names.retain(|n| n.extension().is_some_and(|e| e == "tab"));
    names.sort();
    let (mut cases, mut alone, mut left) = (vec![], vec![], BTreeMap::new());
    for path in &names {
        let (name, table) = (path.file_stem().unwrap().to_string_lossy(), std::fs::read(path).unwrap());
        let given = if joined.iter().any(|other| *other == *name) {
            let end = ours::list(&table, out);
            let table = without_runs(&table, &apart(&out[..end]).0);
            Err(Left { name: name.into(), table, why: OTHERWISE })
        } else {
            case(&name, table, out, room)
        };
        match given {
            Ok(c) => cases.push(c),
            Err(table) => {
                *left.entry(table.why).or_insert(0) += 1;
                alone.extend([DECIDED, OTHERWISE].contains(&table.why).then_some(table));
            }
        }
    }
    println!(
        "{} tables of real volumes; both list {} of them alike. Left out, by why: {left:?}\n",
        names.len(),
        cases.len()
    );
    (cases, alone)
}

fn timed(times: usize, mut f: impl FnMut()) -> f64 {
    let start = Instant::now();
    (0..times).for_each(|_| f());
    start.elapsed().as_nanos() as f64 / times as f64
}

/// One turn of one way: enough listings to fill it.
fn turn(mut f: impl FnMut()) -> f64 {
    let once = timed(1, &mut f).max(1.0);
    timed((TURN / once).ceil() as usize, f)
}

fn middle(mut v: Vec<f64>) -> f64 {
    v.sort_by(f64::total_cmp);
    v[v.len() / 2]
}

/// The middle of the rounds, the three ways and all tables by turns in each.
fn race(cases: &mut [Case], out: &mut [u8], room: &mut Room) -> Vec<Times> {
    let mut all = vec![[const { Vec::new() }; 3]; cases.len()];
    for _ in 0..ROUNDS {
        for (c, t) in cases.iter_mut().zip(&mut all) {
            t[0].push(turn(|| { black_box(ours::list(black_box(&c.table), black_box(&mut *out))); }));
            t[1].push(turn(|| { theirs::list(&c.ntfs, black_box(&mut c.volume), room); black_box(room.out.told()); }));
            t[2].push(turn(|| { theirs::list_table(black_box(&c.table), room); black_box(room.out.told()); }));
        }
    }
    all.into_iter().map(|t| Times(t.map(middle))).collect()
}

/// The same for a pass over all tables, each listed once: no table is warm from the listing before.
fn pass(cases: &mut [Case], out: &mut [u8], room: &mut Room) -> Times {
    let mut all = [const { Vec::new() }; 3];
    for _ in 0..ROUNDS {
        all[0].push(timed(1, || {
            cases.iter().for_each(|c| { black_box(ours::list(black_box(&c.table), black_box(&mut *out))); })
        }));
        all[1].push(timed(1, || {
            cases.iter_mut().for_each(|c| {
                theirs::list(&c.ntfs, black_box(&mut c.volume), room);
                black_box(room.out.told());
            })
        }));
        all[2].push(timed(1, || {
            cases.iter().for_each(|c| { theirs::list_table(black_box(&c.table), room); black_box(room.out.told()); })
        }));
    }
    Times(all.map(middle))
}

fn row(name: &str, reads: f64, Times([ours, rust, whole]): Times) {
    println!("{name:16} {reads:7} {ours:10.0} {rust:10.0} {whole:10.0} {:10.2} {:10.2}", ours / rust, ours / whole);
}

fn heads(what: &str) {
    println!(
        "{what:16} {:>7} {:>10} {:>10} {:>10} {:>10} {:>10}",
        "reads", "ours ns", "Rust ns", "with table", "ours/Rust", "with table"
    );
}

/// Each table, each volume, all of them, and all of them by passes.
fn report(cases: &[Case], times: &[Times], passed: Times) {
    let mut sums: BTreeMap<&str, (f64, Times)> = BTreeMap::new();
    heads("table");
    for (c, t) in cases.iter().zip(times) {
        row(&c.name, c.reads, *t);
        for key in [c.name.split('-').next().unwrap(), "~all"] {
            let sum = sums.entry(key).or_insert((0.0, Times([0.0; 3])));
            sum.0 += c.reads;
            (0..3).for_each(|i| sum.1 .0[i] += t.0[i]);
        }
    }
    println!();
    heads("volume");
    for (name, (reads, t)) in sums {
        row(name.trim_start_matches('~'), reads, t);
    }
    row("all, in passes", cases.iter().map(|c| c.reads).sum(), passed);
}

/// What the lines of runs cost, which the Rust's listing has not: ours over the tables as they came.
fn report_runs(cases: &[Case], times: &[Times], out: &mut [u8]) {
    let mut all = vec![Vec::new(); cases.len()];
    for _ in 0..ROUNDS {
        for (c, t) in cases.iter().zip(&mut all) {
            t.push(turn(|| { black_box(ours::list(black_box(&c.with_runs), black_box(&mut *out))); }));
        }
    }
    let with: f64 = all.into_iter().map(middle).sum();
    let without: f64 = times.iter().map(|t| t.0[0]).sum();
    let lines: f64 = cases.iter().map(|c| c.runs).sum();
    println!("\nwith their {lines} lines of runs: ours {with:.0} ns, {:.1} ns a line", (with - without) / lines);
}

/// The tables that are left to ours alone, each with its class: the Rust lists something else of them, so there is
/// nothing to hold ours to.
fn report_alone(alone: &[Left], out: &mut [u8]) {
    for one in alone {
        let mut times = Vec::new();
        for _ in 0..ROUNDS {
            times.push(turn(|| { black_box(ours::list(black_box(&one.table), black_box(&mut *out))); }));
        }
        println!("ours alone, class {}, {}: {:.0} ns", one.why, one.name, middle(times));
    }
}

/// What one read costs as records grow, then what a listing costs as rows do.
fn report_made(out: &mut [u8], room: &mut Room) {
    let kinds: [(&str, fn(usize) -> Vec<u8>); 3] =
        [("attributes", made::raw), ("searched", made::searched), ("parts", made::parts)];
    let sizes = [512, 1024, 2048, 4096];
    let mut cases = vec![];
    for (kind, make) in kinds {
        cases.extend(sizes.map(|m| {
            case(&format!("{kind} {m}"), make(m), out, room).map_err(|left| panic!("{kind} {m}: {}", left.why)).unwrap()
        }));
    }
    cases.extend([32, 256, 1024, 4000].map(|n| {
        case(&format!("{n} rows"), made::rows(n), out, room).map_err(|left| panic!("{n} rows: {}", left.why)).unwrap()
    }));
    let times = race(&mut cases, out, room);
    println!();
    heads("made");
    cases.iter().zip(&times).for_each(|(c, t)| row(&c.name, c.reads, *t));
    println!("\n{:16} {:>10} {:>10}", "ns a read", "ours", "Rust");
    for (c, t) in cases.iter().zip(&times).take(kinds.len() * sizes.len()) {
        println!("{:16} {:10.2} {:10.2}", c.name, t.0[0] / c.reads, t.0[1] / c.reads);
    }
}

/// Each table once by both, for an instruction counter that counts in here alone.
#[inline(never)]
fn counted(cases: &mut [Case], out: &mut [u8], room: &mut Room) {
    for c in cases {
        black_box(ours::list(black_box(&c.table), out));
        theirs::list(&c.ntfs, &mut c.volume, room);
    }
}

fn main() {
    let words: Vec<_> = std::env::args().skip(1).collect();
    let (mode, words) = match &words[..] {
        [mode, words @ ..] if mode == "--once" || mode == "--ours" => (&mode[..], words),
        words => ("", words),
    };
    let [folder, joined @ ..] = words else { panic!("usage: bench [--once | --ours] VOLUMES [NAME ..]") };
    theirs::begin();
    let (mut out, mut room) = (vec![0u8; ROOM], Room::of(ROOM));
    let (mut cases, alone) = real(folder, joined, &mut out, &mut room);
    if mode == "--once" {
        return counted(&mut cases, &mut out, &mut room);
    }
    if mode == "--ours" {
        return (0..20_000).for_each(|_| {
            cases.iter().for_each(|c| { black_box(ours::list(black_box(&c.table), &mut out)); })
        });
    }
    let times = race(&mut cases, &mut out, &mut room);
    let passed = pass(&mut cases, &mut out, &mut room);
    report(&cases, &times, passed);
    report_runs(&cases, &times, &mut out);
    report_alone(&alone, &mut out);
    report_made(&mut out, &mut room);
    lookups::report();
}
