//! Jobs for `write`, beside the Rust's `nest` and `Emitter::run`.

use crate::nanoseconds;
use job::{Column, Job, encode};
use native::Room;
use std::hint::black_box;
use std::time::Duration;

const LISTING: &str = include_str!("../../samples/listing.txt");

/// Small, usual and larger, as many rows as there may be, and many groups.
pub fn jobs() -> Vec<(&'static str, Job)> {
    vec![
        ("the listing", listing()),
        ("the remittance", generate::remit::sample()),
        ("a payment of 36 claims", over(1, 12)),
        ("a payment of 108 claims", over(1, 36)),
        ("twelve remittances", over(0, 12)),
        ("4,096 rows", rows(1_024, 3_072)),
        ("2,048 groups of two rows", groups(4_096, 2)),
    ]
}

fn listing() -> Job {
    job::parse(LISTING.as_bytes()).expect("the listing is a job")
}

/// The listing's tables with more rows: every row of the second hangs on one of the first.
fn rows(above: i64, below: i64) -> Job {
    let mut job = listing();
    let keys: Vec<Option<i64>> = (0..above).map(Some).collect();
    let names: Vec<Option<String>> = (0..above).map(|row| Some(format!("{:02}", row % 100))).collect();
    let refs: Vec<Option<i64>> = (0..below).map(|row| Some(row * above / below)).collect();
    let days: Vec<Option<i32>> = (0..below).map(|row| Some(20_000 + row as i32)).collect();
    job.data[0].rows = above as u32;
    job.data[0].row = Some(Column::int64(&keys, 0));
    job.data[0].columns[0] = Some(Column::binary(&names));
    job.data[1].rows = below as u32;
    job.data[1].refs[0].1 = Some(Column::int64(&refs, 0));
    job.data[1].columns[0] = Some(Column::date(&days));
    job
}

/// A table cut into groups of so many rows, each row a segment of its own.
fn groups(rows: i32, each: i32) -> Job {
    let text = "loop 0 LX groups 0\n  row! 0 LX 1=c0\nloop 1 CLP in 0 rows 0\n  row! 0 CLP 1=c1\ntable 0\n  : date date\n  | - -\n";
    let mut job = job::parse(text.as_bytes()).expect("a job");
    let heads: Vec<Option<i32>> = (0..rows).map(|row| Some(20_000 + row / each)).collect();
    let cells: Vec<Option<i32>> = (0..rows).map(|row| Some(20_000 + row)).collect();
    job.data[0].rows = rows as u32;
    job.data[0].columns = vec![Some(Column::date(&heads)), Some(Column::date(&cells))];
    job
}

/// The sample's rows so many times over, with keys of their own, from a table on; the rows of the tables before it stand once.
fn over(from: usize, times: i64) -> Job {
    let mut job = generate::remit::sample();
    for table in &mut job.data[from..] {
        let rows = table.rows as usize;
        let numbers = |column: &Option<Column>, step: i64| {
            let Some(Column { values: job::Values::Int64(values, scale), validity }) = column else {
                return column.clone();
            };
            let cells = (0..times).flat_map(|time| {
                (0..rows).map(move |row| {
                    let there = validity.bit(row) != Some(false);
                    values.get(row).filter(|_| there).map(|value| value + time * step)
                })
            });
            Some(Column::int64(&cells.collect::<Vec<_>>(), *scale))
        };
        table.row = numbers(&table.row, 100);
        for (above, column) in &mut table.refs {
            *column = numbers(column, if (*above as usize) < from { 0 } else { 100 });
        }
        table.segment = again(&table.segment, rows, times as usize);
        for column in &mut table.columns {
            *column = again(column, rows, times as usize);
        }
        table.rows *= times as u32;
    }
    job
}

/// A column's cells so many times over.
fn again(column: &Option<Column>, rows: usize, times: usize) -> Option<Column> {
    let Column { values, validity } = column.as_ref()?;
    let over = (0..times).flat_map(|_| 0..rows).collect::<Vec<_>>();
    let there = |row: &usize| validity.bit(*row) != Some(false);
    Some(match values {
        job::Values::Binary(offsets, data) => {
            let cell = |row: &usize| {
                let bounds = offsets.get(*row).zip(offsets.get(row + 1)).filter(|_| there(row));
                bounds.map(|(start, end)| data[*start as usize..*end as usize].to_vec())
            };
            Column::binary(&over.iter().map(cell).collect::<Vec<_>>())
        }
        job::Values::Int64(values, scale) => {
            let cell = |row: &usize| values.get(*row).filter(|_| there(row)).copied();
            Column::int64(&over.iter().map(cell).collect::<Vec<_>>(), *scale)
        }
        job::Values::Decimal128(values, scale) => {
            let cell = |row: &usize| values.get(*row).filter(|_| there(row)).copied();
            Column::decimal(&over.iter().map(cell).collect::<Vec<_>>(), *scale)
        }
        job::Values::Date32(values) => {
            let cell = |row: &usize| values.get(*row).filter(|_| there(row)).copied();
            Column::date(&over.iter().map(cell).collect::<Vec<_>>())
        }
        job::Values::Time32(values) => {
            let cell = |row: &usize| values.get(*row).filter(|_| there(row)).copied();
            Column::time(&over.iter().map(cell).collect::<Vec<_>>())
        }
    })
}

/// A line a job: bytes, rows, segments, and the best time of each side over so many rounds.
pub fn table(length: Duration, rounds: usize) {
    println!(
        "write: nanoseconds a job: the proved one from the job's bytes; the Rust's nest and run from its records,"
    );
    println!(
        "and from the same bytes, which the tools' reader reads and judges; the ratio is that of the last two to the first"
    );
    println!(
        "{:34} {:>7} {:>6} {:>8} {:>10} {:>10} {:>10} {:>6} {:>6}",
        "job", "bytes", "rows", "segments", "proved", "the Rust", "from bytes", "ratio", "ratio"
    );
    for (name, job) in jobs() {
        let bytes = encode(&job);
        let rows: u32 = job.data.iter().map(|table| table.rows).sum();
        let mut room = Room::new(1 << 20, 1 << 14);
        let mut proved = || native::write(black_box(&bytes), room.lists());
        assert_eq!(proved(), 0, "{name}");
        let (mut fast, mut slow, mut whole) = (f64::MAX, f64::MAX, f64::MAX);
        for _ in 0..rounds {
            fast = fast.min(nanoseconds(length, &mut proved));
            slow = slow.min(oracle::nanoseconds(&job, length));
            whole = whole.min(oracle::nanoseconds_from(&bytes, length));
        }
        println!(
            "{name:34} {:>7} {rows:>6} {:>8} {fast:>10.0} {slow:>10.0} {whole:>10.0} {:>6.2} {:>6.2}",
            bytes.len(),
            room.counts[1],
            slow / fast,
            whole / fast
        );
    }
}
