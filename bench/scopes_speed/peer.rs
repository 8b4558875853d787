//! Times the scopes of names, and an ordered map of Rust's beside them.
use std::collections::BTreeMap;

unsafe extern "C" {
    fn scopes_run(
        typedef: bool,
        declared: *const u8, declared_len: usize,
        declared_ends: *const u32, declared_ends_len: usize,
        used: *const u8, used_len: usize,
        used_ends: *const u32, used_ends_len: usize,
    ) -> u32;
    fn clock_gettime(clock: i32, time: *mut Time) -> i32;
}

#[repr(C)]
struct Time {
    seconds: i64,
    nanoseconds: i64,
}

/// The nanoseconds that this thread has run: what waits for a processor does not count.
fn now() -> f64 {
    const THREAD: i32 = 3;
    let mut time = Time { seconds: 0, nanoseconds: 0 };
    assert_eq!(unsafe { clock_gettime(THREAD, &mut time) }, 0);
    time.seconds as f64 * 1e9 + time.nanoseconds as f64
}

/// Names, one after another, and where each ends.
#[derive(Default)]
struct Texts {
    bytes: Vec<u8>,
    ends: Vec<u32>,
}

impl Texts {
    fn of(names: impl IntoIterator<Item = String>) -> Texts {
        let mut texts = Texts::default();
        for name in names {
            texts.bytes.extend_from_slice(name.as_bytes());
            texts.ends.push(texts.bytes.len() as u32);
        }
        texts
    }

    fn iter(&self) -> impl Iterator<Item = &[u8]> {
        let mut begin = 0;
        self.ends.iter().map(move |end| {
            let text = &self.bytes[begin..*end as usize];
            begin = *end as usize;
            text
        })
    }
}

/// Declares the first names as typedef names and looks the second ones up; how many are typedef names.
type Run = fn(&Texts, &Texts) -> u32;

fn scopes(declared: &Texts, used: &Texts) -> u32 {
    unsafe {
        scopes_run(
            true,
            declared.bytes.as_ptr(), declared.bytes.len(),
            declared.ends.as_ptr(), declared.ends.len(),
            used.bytes.as_ptr(), used.bytes.len(),
            used.ends.as_ptr(), used.ends.len(),
        )
    }
}

fn map(declared: &Texts, used: &Texts) -> u32 {
    let mut numbers: BTreeMap<Vec<u8>, u32> = BTreeMap::new();
    let mut typedefs = Vec::new();
    let mut steps = Vec::new();
    for name in declared.iter() {
        let number = match numbers.get(name) {
            Some(number) => *number,
            None => {
                typedefs.push(false);
                let number = numbers.len() as u32;
                numbers.insert(name.to_vec(), number);
                number
            }
        };
        steps.push((number, true, typedefs[number as usize]));
        typedefs[number as usize] = true;
    }
    let is_typedef = |name: &[u8]| numbers.get(name).is_some_and(|number| typedefs[*number as usize]);
    std::hint::black_box(&steps);
    used.iter().filter(|name| is_typedef(name)).count() as u32
}

/// The least nanoseconds of declaring alone, and of declaring and looking up.
fn least(run: Run, declared: &Texts, used: &Texts, typedefs: u32) -> (f64, f64) {
    let mut least = (f64::MAX, f64::MAX);
    let runs = if declared.ends.len() < 10_000 { 200 } else { 40 };
    let nothing = Texts::default();
    for _ in 0..runs {
        let start = now();
        assert_eq!(run(declared, &nothing), 0);
        least.0 = least.0.min(now() - start);
        let start = now();
        assert_eq!(run(declared, used), typedefs);
        least.1 = least.1.min(now() - start);
    }
    least
}

fn mixed(count: usize, seed: u64) -> Vec<usize> {
    let mut state = seed;
    let mut order: Vec<usize> = (0..count).collect();
    for i in (1..count).rev() {
        state ^= state << 13;
        state ^= state >> 7;
        state ^= state << 17;
        order.swap(i, (state % (i as u64 + 1)) as usize);
    }
    order
}

fn names(form: &str, order: Vec<usize>) -> Texts {
    Texts::of(order.into_iter().map(|i| form.replace('#', &i.to_string())))
}

fn texts(orders: &str, count: usize) -> (Texts, Texts, u32) {
    let in_order: Vec<usize> = (0..count).collect();
    let form = "name_#_t";
    match orders {
        "in order, in order" => (names(form, in_order.clone()), names(form, in_order), count as u32),
        "in order, mixed" => (names(form, in_order), names(form, mixed(count, 1)), count as u32),
        "mixed, mixed" => (names(form, mixed(count, 2)), names(form, mixed(count, 1)), count as u32),
        _ => (names(form, in_order), names("value_#", mixed(count, 1)), 0),
    }
}

fn main() {
    println!("| Declared, looked up | | 5,000: declaring, ns | look-up, ns | 80,000: declaring, ns | look-up, ns | Growth |");
    println!("|---|---|---|---|---|---|---|");
    for orders in ["in order, in order", "in order, mixed", "mixed, mixed", "in order, others"] {
        for (name, run) in [("`Scopes`", scopes as Run), ("an ordered map in Rust", map as Run)] {
            let mut cells = String::new();
            let mut totals = Vec::new();
            for count in [5_000, 80_000] {
                let (declared, used, typedefs) = texts(orders, count);
                let (alone, both) = least(run, &declared, &used, typedefs);
                let each = count as f64;
                cells += &format!(" {:.0} | {:.0} |", alone / each, (both - alone) / each);
                totals.push(both);
            }
            println!("| {orders} | {name} |{cells} {:.1} |", totals[1] / totals[0]);
        }
    }
}
