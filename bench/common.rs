//! What the benchmarks share: answers, a hasher, random draws, and how time and stack are measured.

use std::arch::asm;
use std::hash::Hasher;
use std::hint::black_box;
use std::time::{Duration, Instant};

const SAMPLES: usize = 31;
const SAMPLE_TIME: Duration = Duration::from_millis(10);
const STACK_GOAL: usize = 128 * 1024;

/// The result, or the refusal.
pub type Answer = Result<u64, Refusal>;

#[derive(Clone, Copy, Debug, PartialEq, Eq)]
pub struct Refusal {
    pub number: u32,
    pub place: u64,
}

/// The answer that an exported function gives by what it returns and what it puts.
pub fn answer(number: u32, value: u64) -> Answer {
    match number {
        0 => Ok(value),
        _ => Err(Refusal { number, place: value }),
    }
}

pub fn refuse<T>(number: u32, place: usize) -> Result<T, Refusal> {
    Err(Refusal { number, place: place as u64 })
}

/// A hasher like FxHash, fast and not keyed.
#[derive(Default)]
pub struct Fx(u64);

const FACTOR: u64 = 0x517c_c1b7_2722_0a95;

impl Fx {
    fn add(&mut self, word: u64) {
        self.0 = (self.0.rotate_left(5) ^ word).wrapping_mul(FACTOR);
    }
}

impl Hasher for Fx {
    fn write(&mut self, bytes: &[u8]) {
        let mut words = bytes.chunks_exact(8);
        for word in &mut words {
            self.add(u64::from_le_bytes(word.try_into().unwrap()));
        }
        let rest = words.remainder();
        if !rest.is_empty() {
            let mut word = [0; 8];
            word[..rest.len()].copy_from_slice(rest);
            self.add(u64::from_le_bytes(word));
        }
    }

    fn write_u16(&mut self, x: u16) {
        self.add(u64::from(x));
    }

    fn write_usize(&mut self, x: usize) {
        self.add(x as u64);
    }

    fn finish(&self) -> u64 {
        // The set takes the lowest and the highest bits, and the last argument has reached only the highest.
        let product = u128::from(self.0) * u128::from(FACTOR);
        product as u64 ^ (product >> 64) as u64
    }
}

/// SplitMix64.
pub struct Draw(pub u64);

impl Draw {
    fn next(&mut self) -> u64 {
        self.0 = self.0.wrapping_add(0x9e37_79b9_7f4a_7c15);
        let mut x = self.0;
        x = (x ^ (x >> 30)).wrapping_mul(0xbf58_476d_1ce4_e5b9);
        x = (x ^ (x >> 27)).wrapping_mul(0x94d0_49bb_1331_11eb);
        x ^ (x >> 31)
    }

    /// A number from 0 to n - 1.
    pub fn below(&mut self, n: usize) -> usize {
        (self.next() % n as u64) as usize
    }

    /// A number from low to high, both among them.
    pub fn between(&mut self, low: usize, high: usize) -> u16 {
        (low + self.below(high - low + 1)) as u16
    }

    pub fn shuffle<T>(&mut self, items: &mut [T]) {
        for i in (1..items.len()).rev() {
            items.swap(i, self.below(i + 1));
        }
    }
}

// The answers

/// How often each answer was met, 0 standing for a result.
#[derive(Default)]
pub struct Met([usize; 25]);

impl Met {
    pub fn count(&mut self, answer: Answer) {
        self.0[answer.map_or_else(|refusal| refusal.number as usize, |_| 0)] += 1;
    }

    /// Prints them, and fails unless these are the answers that were met.
    pub fn print(&self, expected: &[usize]) {
        let each: Vec<String> = expected.iter().map(|&number| format!("{number}: {}", self.0[number])).collect();
        println!("  met (0 for a result) {}", each.join(", "));
        assert!(self.0.iter().enumerate().all(|(number, &times)| (times > 0) == expected.contains(&number)));
    }
}

// The time

type Run<'a, T> = &'a mut dyn FnMut(&T) -> Answer;

fn pass<T>(run: Run<T>, inputs: &[T], rounds: usize) -> Duration {
    let start = Instant::now();
    for _ in 0..rounds {
        for input in inputs {
            let _ = black_box(run(black_box(input)));
        }
    }
    start.elapsed()
}

/// Nanoseconds for one call.
fn sample<T>(run: Run<T>, inputs: &[T], rounds: usize) -> f64 {
    pass(run, inputs, rounds).as_nanos() as f64 / (rounds * inputs.len()) as f64
}

/// So many rounds that a sample takes long enough.
fn rounds<T>(run: Run<T>, inputs: &[T]) -> usize {
    let mut rounds = 1;
    loop {
        let time = pass(run, inputs, rounds);
        if time >= SAMPLE_TIME {
            return rounds;
        }
        rounds = if time < SAMPLE_TIME / 20 {
            rounds * 10
        } else {
            (rounds as f64 * 1.1 * SAMPLE_TIME.div_duration_f64(time)).ceil() as usize
        };
    }
}

fn median(mut xs: Vec<f64>) -> f64 {
    xs.sort_by(f64::total_cmp);
    xs[xs.len() / 2]
}

/// How many samples are taken: SAMPLES, or the program's argument.
fn samples() -> usize {
    std::env::args().nth(1).map_or(SAMPLES, |n| n.parse().ok().filter(|&n| n > 0).expect("a count of samples"))
}

pub fn verdict(met: bool) -> &'static str {
    match met {
        true => "met",
        false => "MISSED",
    }
}

/// The head of the lines that `time` prints.
pub fn head(one: &str, input: &str) {
    println!();
    println!("microseconds a {one}: medians of {} samples", samples());
    println!("ratios of the library's time to plain Rust's: medians of the samples' ratios");
    println!(
        "{input:<40} {:>9} {:>9} {:>9} {:>8} {:>13} {:>8}  {}",
        "library", "std hash", "fx hash", "/ std", "middle half", "/ fx", "goal (/ std)"
    );
}

/// Times the library, plain Rust, and plain Rust with the other hasher, on the same inputs. Gives the library's median,
/// in nanoseconds.
pub fn time<T>(name: &str, goal: Option<f64>, inputs: &[T], mut runs: [Run<T>; 3]) -> f64 {
    let samples = samples();
    let rounds = runs.each_mut().map(|run| rounds(*run, inputs));
    let mut times = [vec![], vec![], vec![]];
    for i in 0..samples {
        // Each in turn goes first.
        for j in 0..3 {
            let k = (i + j) % 3;
            times[k].push(sample(runs[k], inputs, rounds[k]));
        }
    }
    let ratios = |k: usize| -> Vec<f64> { times[0].iter().zip(&times[k]).map(|(a, b)| a / b).collect() };
    let mut spread = ratios(1);
    spread.sort_by(f64::total_cmp);
    let ratio = median(ratios(1));
    let verdict = goal.map_or("-".to_string(), |goal| format!("{goal:.1} {}", verdict(ratio <= goal)));
    println!(
        "{name:<40} {:>9.2} {:>9.2} {:>9.2} {:>8.2} {:>13} {:>8.2}  {verdict}",
        median(times[0].clone()) / 1000.0,
        median(times[1].clone()) / 1000.0,
        median(times[2].clone()) / 1000.0,
        ratio,
        format!("{:.2}-{:.2}", spread[samples / 4], spread[samples - 1 - samples / 4]),
        median(ratios(2)),
    );
    median(times[0].clone())
}

// The stack

/// Calls a C function of at most nine words on a stack of its own, filled with `paint`. Gives what the function
/// returned, and how many bytes of the stack the call changed, from the return address on down.
///
/// Safety: `function` is such a function, and may be called with these words.
unsafe fn painted(function: *const (), words: [usize; 9], paint: u8) -> (u32, usize) {
    let mut stack = vec![u128::from_ne_bytes([paint; 16]); 1 << 16];
    let bytes = (stack.len() - 2) * 16;
    // The words from the seventh on stand above the return address.
    let top: *mut usize = stack.as_mut_ptr().byte_add(bytes).cast();
    for (i, &word) in words[6..].iter().enumerate() {
        top.add(i).write(word);
    }
    let number: usize;
    // The stack is 16-byte aligned and larger than what a call may use, and r12 keeps the old one.
    asm!(
        "mov r12, rsp",
        "mov rsp, r13",
        "call rax",
        "mov rsp, r12",
        inlateout("rax") function as usize => number,
        in("r13") top,
        out("r12") _,
        in("rdi") words[0],
        in("rsi") words[1],
        in("rdx") words[2],
        in("rcx") words[3],
        in("r8") words[4],
        in("r9") words[5],
        clobber_abi("C"),
    );
    let untouched = stack.iter().flat_map(|x| x.to_ne_bytes()).take_while(|&byte| byte == paint).count();
    assert!(untouched > 0);
    (number as u32, bytes - untouched)
}

/// The stack that a call takes, by two paints. `words` are the words of the call but the last, which is where the
/// function puts its value, and `expected` is its answer.
///
/// Safety: as for `painted`, and the function puts a u64.
pub unsafe fn stack_use(function: *const (), words: &[usize], expected: Answer) -> usize {
    let mut put = 0u64;
    let mut all = [0; 9];
    all[..words.len()].copy_from_slice(words);
    all[words.len()] = &raw mut put as usize;
    let used = [0xa5, 0x5a].map(|paint| {
        let (number, used) = painted(function, all, paint);
        assert_eq!(answer(number, unsafe { (&raw const put).read_volatile() }), expected);
        used
    });
    used[0].max(used[1])
}

pub fn print_stack(function: &str, used: usize) {
    println!(
        "stack of one call of {function}: {used} bytes at most, goal {STACK_GOAL}: {}",
        verdict(used <= STACK_GOAL)
    );
}
