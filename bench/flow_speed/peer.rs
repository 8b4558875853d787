//! peer FILE .. | peer --shapes | peer --first SHAPE METHODS | peer --random COUNT: times and compares the tables of flow graphs.
use std::env;
use std::fs;
use std::time::Instant;

#[repr(C)]
#[derive(Clone, Copy)]
struct Flat {
    from: u32,
    to: u32,
}

#[repr(C)]
#[derive(Clone, Copy)]
struct Cross {
    call: u32,
    from: u32,
    to: u32,
}

#[repr(C)]
#[derive(Clone, Copy, PartialEq, Debug)]
struct Summary {
    goal: u32,
    out: u32,
}

unsafe extern "C" {
    fn flow_run(
        vertices: u32,
        flat: *const Flat, flat_len: usize,
        opens: *const Cross, opens_len: usize,
        closes: *const Cross, closes_len: usize,
        starts: *const u32, starts_len: usize,
        pairs: *mut Summary, pairs_len: usize,
        reached: *mut u8, reached_len: usize,
    ) -> usize;
}

#[derive(Default)]
struct Flow {
    vertices: u32,
    flat: Vec<Flat>,
    opens: Vec<Cross>,
    closes: Vec<Cross>,
    starts: Vec<u32>,
    pairs: Vec<Summary>,
    reached: usize,
}

const RUNS: usize = 49;

/// The pairs, and what is marked where there is room for marks.
fn run(flow: &Flow, room: usize, marks: &mut [u8]) -> Vec<Summary> {
    let mut pairs = vec![Summary { goal: 0, out: 0 }; room];
    let count = unsafe {
        flow_run(
            flow.vertices,
            flow.flat.as_ptr(), flow.flat.len(),
            flow.opens.as_ptr(), flow.opens.len(),
            flow.closes.as_ptr(), flow.closes.len(),
            flow.starts.as_ptr(), flow.starts.len(),
            pairs.as_mut_ptr(), room,
            marks.as_mut_ptr(), marks.len(),
        )
    };
    assert!(count <= room, "{count} pairs");
    pairs.truncate(count);
    pairs
}

/// Milliseconds of one call: the median of the runs, and the least of them.
struct Time {
    median: f64,
    least: f64,
}

fn time_of(mut runs: Vec<f64>) -> Time {
    runs.sort_by(f64::total_cmp);
    Time { median: runs[RUNS / 2], least: runs[0] }
}

/// The times of the table alone, and of the table with the search.
fn times(flow: &Flow, room: usize) -> (Time, Time) {
    let mut alone = Vec::new();
    let mut both = Vec::new();
    let mut marks = vec![0u8; flow.vertices as usize];
    for _ in 0..RUNS {
        let start = Instant::now();
        run(flow, room, &mut []);
        alone.push(start.elapsed().as_secs_f64() * 1000.0);
        let start = Instant::now();
        run(flow, room, &mut marks);
        both.push(start.elapsed().as_secs_f64() * 1000.0);
    }
    (time_of(alone), time_of(both))
}

fn read(path: &str) -> Flow {
    let mut flow = Flow::default();
    for line in fs::read_to_string(path).expect(path).lines() {
        let mut words = line.split(' ');
        let name = words.next().unwrap_or("");
        let n: Vec<u32> = words.map(|word| word.parse().expect(line)).collect();
        match name {
            "vertices" => flow.vertices = n[0],
            "start" => flow.starts.push(n[0]),
            "flat" => flow.flat.push(Flat { from: n[0], to: n[1] }),
            "open" => flow.opens.push(Cross { call: n[0], from: n[1], to: n[2] }),
            "close" => flow.closes.push(Cross { call: n[0], from: n[1], to: n[2] }),
            "pair" => flow.pairs.push(Summary { goal: n[0], out: n[1] }),
            "reached" => flow.reached = n[0] as usize,
            _ => panic!("{line}"),
        }
    }
    flow
}

/// Each of the methods has a first, a middle and a last vertex.
fn shape(name: &str, methods: u32) -> Flow {
    let mut flow = Flow { vertices: 3 * methods + 3, starts: vec![0], ..Flow::default() };
    for m in 0..methods {
        let (first, middle, last) = (3 * m, 3 * m + 1, 3 * m + 2);
        let (callee, is_last) = match name {
            "chain" => (m + 1, m + 1 == methods),
            "recursion" => ((m + 1) % methods, false),
            _ => (methods, false),
        };
        if is_last {
            flow.flat.push(Flat { from: first, to: middle });
        } else {
            flow.opens.push(Cross { call: m, from: first, to: 3 * callee });
            flow.closes.push(Cross { call: m, from: 3 * callee + 2, to: middle });
        }
        if name == "recursion" {
            flow.flat.push(Flat { from: first, to: middle });
        }
        flow.flat.push(Flat { from: middle, to: last });
        if name == "fan" && m > 0 {
            flow.opens.push(Cross { call: methods + m, from: 0, to: first });
            flow.closes.push(Cross { call: methods + m, from: last, to: 1 });
        }
    }
    flow.flat.push(Flat { from: 3 * methods, to: 3 * methods + 2 });
    flow
}

/// A plain fixed point over all pairs of vertices.
fn plain(flow: &Flow) -> (Vec<Summary>, Vec<u8>) {
    let n = flow.vertices as usize;
    let mut matched = vec![vec![false; n]; n];
    for v in 0..n {
        matched[v][v] = true;
    }
    for edge in &flow.flat {
        matched[edge.from as usize][edge.to as usize] = true;
    }
    loop {
        let before = matched.clone();
        for a in 0..n {
            for b in 0..n {
                for c in 0..n {
                    matched[a][c] |= matched[a][b] && matched[b][c];
                }
            }
        }
        for open in &flow.opens {
            for close in &flow.closes {
                if open.call == close.call && matched[open.to as usize][close.from as usize] {
                    matched[open.from as usize][close.to as usize] = true;
                }
            }
        }
        if matched == before {
            break;
        }
    }
    let grown = |mut set: Vec<bool>, crossings: &[&[Cross]]| {
        loop {
            let before = set.clone();
            for a in 0..n {
                for b in 0..n {
                    set[b] |= set[a] && matched[a][b];
                }
            }
            for crossing in crossings.iter().flat_map(|part| part.iter()) {
                set[crossing.to as usize] |= set[crossing.from as usize];
            }
            if set == before {
                return set;
            }
        }
    };
    let mut starts = vec![false; n];
    for start in &flow.starts {
        starts[*start as usize] = true;
    }
    let met = grown(starts.clone(), &[&flow.opens, &flow.closes]);
    let turned = grown(starts, &[&flow.closes]);
    let reached = grown(turned, &[&flow.opens]);
    let mut pairs = Vec::new();
    for goal in 0..n {
        for out in 0..n {
            let is_goal = flow.opens.iter().any(|open| open.to as usize == goal);
            let is_out = flow.closes.iter().any(|close| close.from as usize == out);
            if is_goal && is_out && met[goal] && matched[goal][out] {
                pairs.push(Summary { goal: goal as u32, out: out as u32 });
            }
        }
    }
    (pairs, reached.into_iter().map(u8::from).collect())
}

fn random(count: usize) {
    let mut state = 1u64;
    let mut below = move |n: u32| {
        state ^= state << 13;
        state ^= state >> 7;
        state ^= state << 17;
        (state >> 33) as u32 % n
    };
    let mut most = 0;
    for number in 0..count {
        let vertices = 1 + below(9);
        let calls = 1 + below(4);
        let mut flow = Flow { vertices, ..Flow::default() };
        for _ in 0..below(8) {
            flow.flat.push(Flat { from: below(vertices), to: below(vertices) });
        }
        for _ in 0..below(6) {
            flow.opens.push(Cross { call: below(calls), from: below(vertices), to: below(vertices) });
        }
        for _ in 0..below(6) {
            flow.closes.push(Cross { call: below(calls), from: below(vertices), to: below(vertices) });
        }
        for _ in 0..below(3) {
            flow.starts.push(below(vertices));
        }
        let mut marks = vec![0u8; vertices as usize];
        let pairs = run(&flow, 100, &mut marks);
        let (wanted, reached) = plain(&flow);
        assert_eq!(pairs, wanted, "graph {number}");
        assert_eq!(marks, reached, "graph {number}");
        most = most.max(pairs.len());
    }
    println!("{count} random graphs agree with a plain fixed point; at most {most} pairs");
}

fn main() {
    let args: Vec<String> = env::args().skip(1).collect();
    if args.first().is_some_and(|word| word == "--random") {
        return random(args[1].parse().expect("a count"));
    }
    if args.first().is_some_and(|word| word == "--first") {
        let flow = shape(&args[1], args[2].parse().expect("a count"));
        let mut marks = vec![0u8; flow.vertices as usize];
        let start = Instant::now();
        run(&flow, 20_000, &mut marks);
        println!("{}", start.elapsed().as_secs_f64() * 1000.0);
        return;
    }
    if args.first().is_some_and(|word| word == "--shapes") {
        println!("| Shape | 1,000 methods, ms | 16,000 methods, ms | Growth | Least | Least | Growth |\n|---|---|---|---|---|---|---|");
        for name in ["chain", "recursion", "fan"] {
            let few = times(&shape(name, 1_000), 20_000).1;
            let many = times(&shape(name, 16_000), 20_000).1;
            print!("| {name} | {:.2} | {:.2} | {:.1} ", few.median, many.median, many.median / few.median);
            println!("| {:.2} | {:.2} | {:.1} |", few.least, many.least, many.least / few.least);
        }
        return;
    }
    println!("| File | Vertices | Pairs | Reached | table, ms | table and search, ms |\n|---|---|---|---|---|---|");
    for path in &args {
        let flow = read(path);
        let mut marks = vec![0u8; flow.vertices as usize];
        let pairs = run(&flow, flow.pairs.len() + 1, &mut marks);
        assert_eq!(pairs, flow.pairs, "{path}");
        let reached = marks.iter().filter(|mark| **mark == 1).count();
        assert_eq!(reached, flow.reached, "{path}");
        let (alone, both) = times(&flow, flow.pairs.len() + 1);
        let name = path.rsplit('/').next().unwrap_or(path);
        let (alone, both) = (alone.median, both.median);
        println!("| {name} | {} | {} | {reached} | {alone:.1} | {both:.1} |", flow.vertices, pairs.len());
    }
}
