//! peer DECLARATIONS [EXPRESSION]: times the reading of both texts, and tells what memory their trees take.
use std::env;
use std::fs;
use std::time::Instant;

unsafe extern "C" {
    fn part_run(
        declarations: *const u8, declarations_len: usize,
        value: *const u8, value_len: usize,
        times: u32,
    ) -> usize;
}

const RUNS: usize = 21;

fn run(declarations: &[u8], value: &[u8], times: u32) -> f64 {
    let begun = Instant::now();
    let answer = unsafe {
        part_run(declarations.as_ptr(), declarations.len(), value.as_ptr(), value.len(), times)
    };
    assert_eq!(answer, 0, "not read: from 4 on, four more than the token");
    begun.elapsed().as_secs_f64()
}

/// The most memory that the process has held, in bytes.
fn peak() -> f64 {
    let status = fs::read_to_string("/proc/self/status").unwrap();
    let line = status.lines().find(|line| line.starts_with("VmHWM:")).unwrap();
    line.split_whitespace().nth(1).unwrap().parse::<f64>().unwrap() * 1024.0
}

/// The seconds of one more reading, in the middle of the runs.
fn seconds(declarations: &[u8], value: &[u8]) -> f64 {
    let mut times: Vec<f64> = (0..RUNS)
        .map(|_| (run(declarations, value, 5) - run(declarations, value, 1)) / 4.0)
        .collect();
    times.sort_by(f64::total_cmp);
    times[RUNS / 2]
}

fn main() {
    let words: Vec<String> = env::args().skip(1).collect();
    let declarations = fs::read(&words[0]).unwrap();
    let value = words.get(1).map(|name| fs::read(name).unwrap()).unwrap_or_default();
    run(&declarations, &value, 0);
    let before = peak();
    run(&declarations, &value, 1);
    let held = peak() - before;
    let bytes = (declarations.len() + value.len()) as f64;
    let all = seconds(&declarations, &value);
    let alone = if value.is_empty() { all } else { seconds(&declarations, b"") };
    println!(
        "| {:.2} | {:.2} | {:.1} | {:.1} | {} | {:.1} |",
        declarations.len() as f64 / 1e6,
        value.len() as f64 / 1e6,
        alone * 1e3,
        declarations.len() as f64 / 1e6 / alone,
        if value.is_empty() { String::from("") } else { format!("{:.1} | {:.1}", (all - alone) * 1e3, value.len() as f64 / 1e6 / (all - alone)) },
        held / bytes,
    );
}
