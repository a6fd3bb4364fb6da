//! Repairing old flag bytes: the time of a call, of a record and of a byte, at four sizes and in three orders.
use benchmark::program;
use benchmark::rounds::{interleaved, Contestant, Times};
use petasunok::{lent, Change};
use std::collections::BTreeMap;
use std::env;
use std::hint::black_box;
use std::process::ExitCode;

const USAGE: &str = "\
usage: repair [--rounds N]

Measures a repair at 16, 256, 4,096 and 60,000 records, N rounds of three inputs in turn: canonical bytes, the same records shuffled, and
shuffled records of which each epoch has two. The last line says whether the cost grows in line with the bytes.";

/// How many records the inputs have. The growth is judged between the last two: the smaller ones are ruled by the part of the cost that all
/// have.
const SIZES: [usize; 4] = [16, 256, 4_096, 60_000];

/// A byte of the last size costs at most so many times what one of the size before it does. Where each record looked at all others, it would
/// be fifteen times; caches and a busy machine are seen to make it up to one and a half.
const MOST_GROWTH: f64 = 3.0;

/// The rounds of a run that does not say.
const ROUNDS: usize = 31;

/// A record: its epoch and its count.
type Record = (u16, u32);

/// The inputs, in the order in which they are measured.
#[derive(Clone, Copy)]
enum Order {
    Canonical,
    Shuffled,
    Repeated,
}

impl Order {
    const ALL: [Order; 3] = [Order::Canonical, Order::Shuffled, Order::Repeated];

    fn name(self) -> &'static str {
        match self {
            Order::Canonical => "canonical",
            Order::Shuffled => "shuffled",
            Order::Repeated => "shuffled, with repeats",
        }
    }

    /// So many records at base 0. Epochs are spread over all that there are, and counts have any number of bits.
    fn records(self, many: usize) -> Vec<Record> {
        let epochs = if matches!(self, Order::Repeated) { many.div_ceil(2) } else { many };
        let epoch = |place: usize| (1 + place % epochs * 65_535 / epochs) as u16;
        let count = |place: usize| (place as u32 + 1).wrapping_mul(0x9e37_79b1) >> (place % 32);
        let mut records: Vec<_> = (0..many).map(|place| (place, (epoch(place), count(place)))).collect();
        if !matches!(self, Order::Canonical) {
            // an odd factor: no two have one key, and neighbours come to lie far apart
            records.sort_by_key(|(place, _)| place * 40_503 % 65_536);
        }
        records.into_iter().map(|(_, record)| record).collect()
    }
}

/// The bytes of unowned flags with several epochs at base 0.
fn encoded(records: impl IntoIterator<Item = Record>) -> Vec<u8> {
    let mut bytes = vec![1, 0, 0];
    for (epoch, mut count) in records {
        bytes.extend(epoch.to_be_bytes());
        while count > 127 {
            bytes.push(count as u8 | 128);
            count >>= 7;
        }
        bytes.push(count as u8);
    }
    bytes
}

/// Old bytes, and room for their repair.
struct Input {
    old: Vec<u8>,
    out: Vec<u8>,
    offsets: Vec<usize>,
    changes: Vec<u8>,
    /// How many calls a round makes.
    calls: usize,
}

impl Input {
    fn new(order: Order, records: usize) -> Input {
        let old = encoded(order.records(records));
        let lines = old.len() / 2 + 2;
        Input { out: vec![0; old.len()], offsets: vec![0; lines], changes: vec![0; lines], calls: calls(records), old }
    }

    /// Repairs the bytes so many times; the sizes of the last answer.
    fn repair(&mut self, times: usize) -> lent::RepairedSizes {
        let mut sizes = lent::RepairedSizes { bytes: 0, lines: 0 };
        for _ in 0..times {
            let answer = lent::repair(black_box(&self.old), &mut self.out, &mut self.offsets, &mut self.changes);
            sizes = black_box(answer.expect("the head is complete, and there is room"));
        }
        sizes
    }

    /// Compares a repair with what the standard library's map has, and its lines with what the order asks for.
    fn check(&mut self, order: Order, records: usize) -> Result<(), String> {
        let sizes = self.repair(1);
        let map: BTreeMap<u16, u32> = order.records(records).into_iter().collect();
        let replaced = self.changes[..sizes.lines].iter().filter(|change| **change == Change::Replaced.number()).count();
        let right = self.out[..sizes.bytes] == encoded(map.clone()) && replaced == records - map.len();
        let lines = matches!(order, Order::Canonical) != (sizes.lines > 0);
        if right && lines {
            return Ok(());
        }
        Err(format!("{records} records, {}: {} bytes and {} lines are not the repair", order.name(), sizes.bytes, sizes.lines))
    }
}

impl Contestant for Input {
    fn work(&mut self) {
        self.repair(self.calls);
    }
}

/// The times of a repair in each order, and the bytes of each input.
fn measure(records: usize, rounds: usize) -> Result<[(Times, usize); 3], String> {
    let mut inputs = Order::ALL.map(|order| Input::new(order, records));
    for (input, order) in inputs.iter_mut().zip(Order::ALL) {
        input.check(order, records)?;
    }
    let bytes = inputs.each_ref().map(|input| input.old.len());
    let [canonical, shuffled, repeated] = &mut inputs;
    let [canonical, shuffled, repeated] = interleaved(rounds, [canonical, shuffled, repeated]);
    Ok([(canonical, bytes[0]), (shuffled, bytes[1]), (repeated, bytes[2])])
}

/// How many calls a round makes.
fn calls(records: usize) -> usize {
    (65_536 / records).clamp(1, 32)
}

/// A line of the report, and what a byte costs in the shortest round.
fn line(records: usize, order: Order, times: &Times, bytes: usize) -> (String, f64) {
    let [least, median] = [times.least(), times.median()].map(|time| time / calls(records) as f64);
    let of = |parts: usize| format!("{:.2} | {:.2}", least / parts as f64, median / parts as f64);
    let costs = format!("{least:.0} | {median:.0} | {} | {}", of(records), of(bytes));
    (format!("| {records} | {} | {bytes} | {costs} |", order.name()), least / bytes as f64)
}

/// The whole report, line by line as it is measured.
fn report(rounds: usize) -> Result<(), String> {
    println!("A repair's nanoseconds on {}, shortest and middle of {rounds} rounds.", env::consts::ARCH);
    println!();
    println!("| Records | Input | Bytes | A call, least | median | A record, least | median | A byte, least | median |");
    println!("|---|---|---|---|---|---|---|---|---|");
    let (mut before, mut growth) = ([f64::INFINITY; 3], 0.0);
    for records in SIZES {
        eprintln!("repair: {records} records");
        growth = 0.0f64;
        for ((order, (times, bytes)), before) in Order::ALL.into_iter().zip(measure(records, rounds)?).zip(&mut before) {
            let (line, of_byte) = line(records, order, &times, bytes);
            println!("{line}");
            growth = growth.max(of_byte / *before);
            *before = of_byte;
        }
    }
    println!();
    println!("{}", judged(growth));
    Ok(())
}

/// What the growth of a byte's cost says.
fn judged(growth: f64) -> String {
    let [smaller, larger] = [SIZES[2], SIZES[3]];
    let verdict = if growth <= MOST_GROWTH { "in line" } else { "OUT OF LINE" };
    let rise = format!("from {smaller} to {larger} records that of a byte by a factor of {growth:.2} at most");
    format!("repair: the cost grows {verdict} with the bytes: {rise}")
}

/// Does what the arguments say.
fn run(arguments: &[&str]) -> Result<(), String> {
    match arguments {
        [] => report(ROUNDS),
        ["--help"] => program::help(USAGE),
        ["--rounds", rounds] => report(program::rounds(rounds)?),
        _ => Err(USAGE.into()),
    }
}

fn main() -> ExitCode {
    program::ended("repair", run)
}
