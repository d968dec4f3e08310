// What the library is measured against, in plain Rust: the listers of listers.rs, and a reader and a writer of files as the standard library offers
// itself for them. bench/run builds it with `rustc -O`.
//
// usage: plain WHAT 'BUDGET REPEATS' [arrays|vectors|bits] <FILE
//
//   gauges, cases  lists some times over and writes the number of ladders and a sum over their rows and their order, as crates/bench_runs does
//   read, write    reads, or writes, the file's table some times over, and writes a sum, as crates/bench_entries does
//   list           writes each ladder of the table as a file, one after another, as crates/ladders does
//
// A budget means nothing here: it stands for the library's.
mod listers;
use listers::{exchanged, list_vectors, Arrays, Bits};
use std::fmt::Write as _;
use std::hint::black_box;
use std::io::{Read, Write as _};

const BANNER: &str = "%%MatrixMarket matrix coordinate pattern general";

struct Table {
    gauges: usize,
    cases: usize,
    rows: [u64; 64],
}

struct Tally {
    count: u64,
    sum: u64,
}

impl Tally {
    // A ladder more, by gauge rows: the sum goes one step on and takes the ladder in.
    fn add(&mut self, rows: &[u64; 64], gauges: usize) {
        let mut folded = 0;
        for i in 0..gauges {
            folded ^= rows[i] << (i * 7 % 64);
        }
        self.count = self.count.wrapping_add(1);
        self.sum ^= self.sum << 13;
        self.sum ^= self.sum >> 7;
        self.sum ^= self.sum << 17;
        self.sum ^= folded;
    }
}

// The table of a file that is known to be legal.
fn read_table(file: &str) -> Table {
    let mut numbers = file
        .lines()
        .filter(|line| !line.starts_with('%'))
        .flat_map(|line| line.split_whitespace())
        .map(|word| word.parse::<usize>().expect("a number"));
    let mut next = || numbers.next().expect("a number more");
    let (gauges, cases, pairs) = (next(), next(), next());
    let mut rows = [0u64; 64];
    for _ in 0..pairs {
        let (g, c) = (next(), next());
        rows[g - 1] |= 1 << (c - 1);
    }
    Table { gauges, cases, rows }
}

// Writes a set of pairs behind what is there.
fn write_table(rows: &[u64; 64], gauges: usize, cases: usize, out: &mut String) {
    let pairs: u32 = rows.iter().map(|row| row.count_ones()).sum();
    writeln!(out, "{BANNER}\n{gauges} {cases} {pairs}").expect("room");
    for g in 0..gauges {
        for c in 0..cases {
            if rows[g] >> c & 1 == 1 {
                writeln!(out, "{} {}", g + 1, c + 1).expect("room");
            }
        }
    }
}

// Lists the table so many times.
fn repeat(t: &Table, by_cases: bool, kind: &str, repeats: u64) -> Tally {
    let mut tally = Tally { count: 0, sum: 0 };
    for _ in 0..repeats {
        let (rows, n) = if by_cases { (exchanged(&t.rows, t.gauges, t.cases), t.cases) } else { (t.rows, t.gauges) };
        let tally = &mut tally;
        let mut out = |chain: &[u64; 64]| {
            if by_cases {
                tally.add(&exchanged(chain, t.cases, t.gauges), t.gauges);
            } else {
                tally.add(chain, t.gauges);
            }
        };
        match kind {
            "vectors" => list_vectors(&rows, (0..n).collect(), !0, vec![0; 64], &mut out),
            "bits" => Bits { rows, chain: [0; 64], out }.list(if n == 64 { !0 } else { (1 << n) - 1 }, !0),
            _ => Arrays { rows, n, picked: [false; 64], chain: [0; 64], out }.list(!0),
        }
    }
    tally
}

// Writes each ladder as a file on standard output.
fn list(t: &Table) {
    let mut stdout = std::io::stdout().lock();
    let mut space = String::new();
    let out = |chain: &[u64; 64]| {
        write_table(chain, t.gauges, t.cases, &mut space);
        if space.len() >= 40_000 {
            stdout.write_all(space.as_bytes()).expect("written");
            space.clear();
        }
    };
    Arrays { rows: t.rows, n: t.gauges, picked: [false; 64], chain: [0; 64], out }.list(!0);
    stdout.write_all(space.as_bytes()).expect("written");
}

fn main() {
    let words: Vec<String> = std::env::args().collect();
    let repeats: u64 = words[2].split_whitespace().nth(1).expect("BUDGET REPEATS").parse().expect("a number");
    let kind = words.get(3).map_or("arrays", |word| word.as_str());
    let mut file = String::new();
    std::io::stdin().read_to_string(&mut file).expect("a file on standard input");
    let t = read_table(&file);
    let mut sum: u64 = 0;
    match words[1].as_str() {
        "read" => {
            for _ in 0..repeats {
                sum = sum.wrapping_add(read_table(black_box(&file)).rows[0]);
            }
            println!("{sum}");
        }
        "write" => {
            let mut space = String::new();
            for _ in 0..repeats {
                space.clear();
                write_table(black_box(&t.rows), t.gauges, t.cases, &mut space);
                let byte = space.as_bytes().get((sum % 64) as usize).map_or(0, |byte| *byte as u64);
                sum = sum.wrapping_add(space.len() as u64).wrapping_add(byte);
            }
            println!("{sum}");
        }
        "list" => list(&t),
        side => {
            let tally = repeat(&t, side == "cases", kind, repeats);
            println!("{} {}", tally.count, tally.sum);
        }
    }
}
