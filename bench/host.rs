// With a folder as its argument, counts questions and measures time, and writes questions.csv and time.csv there.
// With none, prints what the machine does with every judge of three parts, and with the two-valued ones of four that
// fail all.

mod judges;
mod methods;

use judges::{Judge, Needing, Random, Table, Together};
use methods::{Asked, Left, Machine, PARTS, SAID};
use std::error::Error;
use std::fs::File;
use std::io::{self, BufWriter, Write};
use std::time::{Duration, Instant};

type Method = (&'static str, fn(&mut Asked) -> Left);

// The first is this machine.
const METHODS: [Method; 6] = [
    ("hidlombe", methods::machine),
    ("halving", methods::halving),
    ("ddmin", methods::ddmin),
    ("quickxplain", methods::quickxplain),
    ("chunks", methods::chunks),
    ("one-by-one", methods::one_by_one),
];

// How many runs the clustered parts lie in.
const RUNS: u64 = 4;

const RANDOM: [(u64, &[u64]); 4] = [
    (20, &[0, 1, 2, 3, 4, 5, 6, 8, 10, 12, 15, 18, 20]),
    (100, &[0, 1, 2, 3, 5, 7, 10, 15, 20, 30, 50, 70, 90, 100]),
    (
        1000,
        &[
            0, 1, 2, 3, 5, 10, 20, 30, 50, 100, 200, 300, 500, 700, 900, 1000,
        ],
    ),
    (
        4096,
        &[
            0, 1, 2, 3, 5, 10, 20, 30, 50, 100, 200, 300, 500, 1000, 1500, 2000, 3000, 3500, 4000,
            4096,
        ],
    ),
];

const CLUSTERED: [(u64, &[u64]); 2] = [
    (1000, &[4, 10, 20, 50, 100, 200, 500, 900]),
    (
        4096,
        &[4, 10, 20, 50, 100, 200, 500, 1000, 2000, 3000, 4000],
    ),
];

const NEEDING: (u64, &[u64]) = (100, &[1, 2, 3, 5, 10, 20, 50, 100]);

// Few where a run takes long.
fn samples(k: u64) -> u64 {
    if k > 100 { 20 } else { 200 }
}

// The binary logarithm of how many ways there are to choose k of n.
fn ways(n: u64, k: u64) -> f64 {
    (0..k)
        .map(|i| ((n - i) as f64).log2() - ((i + 1) as f64).log2())
        .sum()
}

// The questions of a method over many judges.
#[derive(Default)]
struct Count {
    samples: u64,
    sum: u64,
    most: u64,
}

impl Count {
    fn add(&mut self, questions: u64) {
        self.samples += 1;
        self.sum += questions;
        self.most = self.most.max(questions);
    }

    fn mean(&self) -> f64 {
        self.sum as f64 / self.samples as f64
    }
}

// A method's questions of a judge of which it is known what is lean.
fn questions(method: fn(&mut Asked) -> Left, n: u64, judge: &dyn Judge, lean: &[u64]) -> u64 {
    let mut asked = Asked::new(n, judge);
    let left = method(&mut asked);
    assert_eq!(left.as_deref(), Some(lean), "a method is at fault");
    asked.questions
}

// All methods on judges of one kind, of n parts of which k fail together.
struct Cell {
    judge: &'static str,
    n: u64,
    k: u64,
    counts: [Count; METHODS.len()],
}

impl Cell {
    fn new(judge: &'static str, n: u64, k: u64) -> Cell {
        Cell {
            judge,
            n,
            k,
            counts: Default::default(),
        }
    }

    fn run(&mut self, judge: &dyn Judge, lean: &[u64]) {
        for ((name, method), count) in METHODS.iter().zip(&mut self.counts) {
            // Both take it that nothing alone doesn't fail.
            if self.k == 0 && matches!(*name, "ddmin" | "quickxplain") {
                continue;
            }
            count.add(questions(*method, self.n, judge, lean));
        }
        // The rules that halving shares with the machine are those of the library.
        assert_eq!(
            questions(methods::rules, self.n, judge, lean),
            questions(methods::machine, self.n, judge, lean),
        );
    }

    fn write(&self, csv: &mut impl Write, least: f64) -> io::Result<()> {
        let Cell {
            judge,
            n,
            k,
            counts,
        } = self;
        for ((name, _), count) in METHODS
            .iter()
            .zip(counts)
            .filter(|(_, count)| count.samples > 0)
        {
            writeln!(
                csv,
                "{judge},{n},{k},{name},{:.2},{},{},{least:.1}",
                count.mean(),
                count.most,
                count.samples
            )?;
        }
        Ok(())
    }
}

// What the questions of all and of what is left without each of k parts come to, beside those that tell one of 2^bits.
fn least(bits: f64, k: f64) -> f64 {
    bits + k + 1.0
}

fn count_questions(csv: &mut impl Write) -> io::Result<()> {
    let random = &mut Random::seeded();
    writeln!(csv, "judge,n,k,method,mean,most,samples,least")?;
    for (n, ks) in RANDOM {
        for &k in ks {
            let mut cell = Cell::new("random", n, k);
            for _ in 0..samples(k) {
                let judge = Together::random(random, n, k);
                cell.run(&judge, &judge.parts);
            }
            cell.write(csv, least(ways(n, k), k as f64))?;
        }
    }
    for (n, ks) in CLUSTERED {
        for &k in ks {
            let mut cell = Cell::new("clustered", n, k);
            for _ in 0..samples(k) {
                let judge = Together::in_runs(random, n, k, RUNS);
                cell.run(&judge, &judge.parts);
            }
            cell.write(csv, least(ways(n - k + RUNS, RUNS), k as f64))?;
        }
    }
    let (n, ks) = NEEDING;
    for &k in ks {
        let mut cell = Cell::new("needing", n, k);
        let mut left = 0;
        for _ in 0..samples(k) {
            let judge = Needing::random(random, n, k);
            let lean = judge.lean();
            left += lean.len();
            cell.run(&judge, &lean);
        }
        // How many ways there are isn't known.
        cell.write(csv, least(0.0, left as f64 / samples(k) as f64))?;
    }
    csv.flush()
}

// How long each step of a run takes, the judge not counted.
fn step_times(n: u64, judge: &dyn Judge) -> Vec<Duration> {
    let mut machine = Machine::new();
    let mut times = Vec::new();
    let mut timed = |machine: &mut Machine, kind, number| {
        let start = Instant::now();
        let told = machine.step(kind, number);
        times.push(start.elapsed());
        told
    };
    let mut told = timed(&mut machine, PARTS, n);
    while let Some(question) = machine.question(told) {
        let verdict = judge.says(question);
        told = timed(&mut machine, SAID, verdict);
    }
    times
}

fn micros(time: Duration) -> f64 {
    time.as_nanos() as f64 / 1000.0
}

// The worst is the longest of all steps. A run is repeated, and does the same each time: so the time that a step always
// takes is seen beside that which another process took from it.
fn measure_time(csv: &mut impl Write) -> io::Result<()> {
    const REPEATS: usize = 5;
    let random = &mut Random::seeded();
    writeln!(csv, "n,steps,mean_us,worst_us,worst_of_fastest_us")?;
    for n in [64, 1024, 4096] {
        let (mut steps, mut sum) = (0, Duration::ZERO);
        let (mut worst, mut worst_of_fastest) = (Duration::ZERO, Duration::ZERO);
        for k in [0, 1, 2, 5, n / 64, n / 16, n / 4, n / 2, n - 1, n] {
            for _ in 0..5 {
                let judge = Together::random(random, n, k);
                let mut fastest = step_times(n, &judge);
                for repeat in 0..REPEATS {
                    let times = if repeat == 0 {
                        fastest.clone()
                    } else {
                        step_times(n, &judge)
                    };
                    steps += times.len();
                    sum += times.iter().sum::<Duration>();
                    worst = worst.max(times.iter().copied().max().unwrap_or_default());
                    for (least, time) in fastest.iter_mut().zip(times) {
                        *least = time.min(*least);
                    }
                }
                worst_of_fastest =
                    worst_of_fastest.max(fastest.into_iter().max().unwrap_or_default());
            }
        }
        let mean = micros(sum) / steps as f64;
        writeln!(
            csv,
            "{n},{steps},{mean:.2},{:.2},{:.2}",
            micros(worst),
            micros(worst_of_fastest)
        )?;
    }
    csv.flush()
}

// What the machine does with every judge whose table is the digits of these numbers: how many parts are left, for how
// many judges, and the most questions.
fn print_every(parts: u64, base: u64, numbers: std::ops::Range<u64>) {
    let mut sound = Count::default();
    let mut left: Vec<Count> = (0..=parts).map(|_| Count::default()).collect();
    for number in numbers {
        let judge = Table::of_number(number, base, parts);
        let mut asked = Asked::new(parts, &judge);
        match methods::machine(&mut asked) {
            Some(it) => left[it.len()].add(asked.questions),
            None => sound.add(asked.questions),
        }
    }
    if sound.samples > 0 {
        println!("{parts} - {} {}", sound.samples, sound.most);
    }
    for (k, count) in left.iter().enumerate() {
        println!("{parts} {k} {} {}", count.samples, count.most);
    }
}

fn main() -> Result<(), Box<dyn Error>> {
    let Some(folder) = std::env::args().nth(1) else {
        print_every(3, 3, 0..6561);
        print_every(4, 2, 32768..65536);
        return Ok(());
    };
    let create = |name: &str| File::create(format!("{folder}/{name}")).map(BufWriter::new);
    count_questions(&mut create("questions.csv")?)?;
    measure_time(&mut create("time.csv")?)?;
    Ok(())
}
