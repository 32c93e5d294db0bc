//! Times the library's whole call and its layers against the yardstick, and compares every result bit for bit.

mod sheets;
mod yardstick;

use sheets::{Random, Sheet};
use std::arch::global_asm;
use std::hint::black_box;
use std::time::Instant;

// So many bytes before all code that is timed: where a loop comes to lie moves its time by up to a tenth, so times are taken over several layouts.
global_asm!(concat!(".section .text.pad,\"axR\",@progbits\n.skip ", env!("PAD"), "\n.text"));

// The library takes a slice as a pointer and then a length. Each stands in two words, so six registers hold three of them and none is torn apart.
#[repr(C)]
#[derive(Clone, Copy)]
struct Part<T>(*const T, usize);

#[repr(C)]
#[derive(Clone, Copy)]
struct PartMut<T>(*mut T, usize);

fn part<T>(s: &[T]) -> Part<T> {
    Part(s.as_ptr(), s.len())
}

fn part_mut<T>(s: &mut [T]) -> PartMut<T> {
    PartMut(s.as_mut_ptr(), s.len())
}

extern "C" {
    fn timed_read(words: Part<u16>, out: PartMut<u64>);
    fn timed_mark(words: Part<u16>, out: PartMut<u64>);
    fn timed_check(words: Part<u16>, out: PartMut<u64>);
    fn timed_write(words: Part<u16>, table: PartMut<u16>, out: PartMut<u64>);
    fn timed_run(
        words: Part<u16>,
        table: PartMut<u16>,
        values: PartMut<f64>,
        turns: PartMut<u16>,
        starts: Part<f64>,
        seeds: Part<f64>,
        result: PartMut<f64>,
        out: PartMut<u64>,
    );
}

/// A sheet with buffers of the sizes that it needs.
struct Ready {
    sheet: Sheet,
    table: Vec<u16>,
    values: Vec<f64>,
    turns: Vec<u16>,
    result: Vec<f64>,
    longest: u64,
    rows: u64,
}

const NO: u64 = u64::MAX;

fn ready(sheet: Sheet) -> Ready {
    let mut out = [NO; 8];
    unsafe { timed_check(part(&sheet.words), part_mut(&mut out)) };
    assert_eq!(out[0], 0, "the sheet is refused by {} at {}", out[0], out[1]);
    let variables = sheet.starts.len();
    Ready {
        table: vec![0; 1 + 4 * out[3] as usize],
        values: vec![0.0; out[4] as usize],
        turns: vec![0; out[5] as usize],
        result: vec![0.0; 2 * variables],
        longest: out[2],
        rows: out[3],
        sheet,
    }
}

fn ours(r: &mut Ready) -> u64 {
    let mut out = [NO; 8];
    unsafe {
        timed_run(
            part(&r.sheet.words),
            part_mut(&mut r.table),
            part_mut(&mut r.values),
            part_mut(&mut r.turns),
            part(&r.sheet.starts),
            part(&r.sheet.seeds),
            part_mut(&mut r.result),
            part_mut(&mut out),
        )
    };
    out[0]
}

fn theirs(r: &Ready) -> Vec<f64> {
    let words = &r.sheet.words;
    let variables = words[0] as usize;
    let constants = words[1 + variables] as usize;
    let first = 2 + variables;
    match yardstick::run(&r.table, &words[1..1 + variables], &words[first..first + constants], &r.sheet.starts, &r.sheet.seeds) {
        Ok(result) => result,
        Err(stop) => panic!("stopped at row {}", stop.0),
    }
}

fn layer(r: &mut Ready, which: usize) -> u64 {
    let mut out = [NO; 8];
    let words = part(&r.sheet.words);
    let said = part_mut(&mut out);
    unsafe {
        match which {
            0 => timed_read(words, said),
            1 => timed_mark(words, said),
            2 => timed_check(words, said),
            _ => timed_write(words, part_mut(&mut r.table), said),
        }
    };
    out[0]
}

/// What is timed: the call as far as each layer, the whole call, and the yardstick.
const TIMED: usize = 6;

const WHOLE: usize = 4;

const THEIRS: usize = 5;

fn call(r: &mut Ready, which: usize) {
    match which {
        WHOLE => assert_eq!(black_box(ours(r)), 0),
        THEIRS => drop(black_box(theirs(r))),
        _ => assert_eq!(black_box(layer(r, which)), 0),
    }
}

/// For each of them the least, over rounds in which all sheets take turns, of the microseconds that one sheet takes: what else the machine does
/// only ever adds.
fn least(sheets: &mut [Ready]) -> [f64; TIMED] {
    let mut least = [f64::MAX; TIMED];
    for _ in 0..ROUNDS {
        for (which, best) in least.iter_mut().enumerate() {
            let start = Instant::now();
            sheets.iter_mut().for_each(|r| call(r, which));
            *best = best.min(start.elapsed().as_secs_f64() * 1e6 / sheets.len() as f64);
        }
    }
    least
}

const ROUNDS: usize = 500;

fn main() {
    let kinds: [(&str, fn(&mut Random) -> Sheet); 7] = [
        ("straight, mixed", sheets::straight),
        ("straight, products", sheets::products),
        ("ifs", sheets::ifs),
        ("repeats", sheets::repeats),
        ("hazard sheet", sheets::hazard),
        ("ten repeats in a row", sheets::chains),
        ("eight nested repeats", sheets::nested),
    ];
    for (name, make) in kinds {
        let mut some: Vec<Ready> = (1..9).map(|seed| ready(make(&mut Random::new(seed)))).collect();
        for r in &mut some {
            assert_eq!(ours(r), 0, "{name}");
            let other = theirs(r);
            assert!(r.result.iter().zip(&other).all(|(x, y)| x.to_bits() == y.to_bits()), "{name}: results differ");
        }
        let t = least(&mut some);
        let (longest, rows) = (some[0].longest, some[0].rows);
        println!(
            "{name}\t{longest}\t{rows}\t{:.1}\t{:.1}\t{:.2}\t{:.1}\t{:.1}\t{:.1}\t{:.1}\t{:.1}",
            t[WHOLE],
            t[THEIRS],
            t[THEIRS] / t[WHOLE],
            t[0],
            t[1] - t[0],
            t[2] - t[1],
            t[3] - t[2],
            t[WHOLE] - t[3]
        );
    }
}
