// Compares the compiled number crates with the source's own functions, input by input. Seeds are fixed, so every run
// compares the same inputs. Prints how many inputs each function was compared on, or the first difference in full.
#[path = "../oracle/signals.rs"]
#[allow(dead_code)]
mod signals;

use qoaudio::{decode_all, leaves as source};
use signals::Random;
use source::State;
use std::fmt::Debug;

/// The compiled Rattle functions. What a contract requires is kept by the inputs below.
mod rattle {
    use super::State;

    extern "C" {
        fn leaves_qoa_div(v: i32, sf: usize) -> i32;
        fn leaves_code(quotient: i32) -> u8;
        fn leaves_quick_code(v: i32, sf: usize) -> u8;
        fn leaves_reciprocal(sf: usize) -> i32;
        fn leaves_dequant(sf: usize, code: usize) -> i32;
        fn leaves_predict(history: &[i32; 4], weights: &[i32; 4]) -> i32;
        fn leaves_penalty(history: &[i32; 4], weights: &[i32; 4]) -> u32;
        fn leaves_update(history: &mut [i32; 4], weights: &mut [i32; 4], sample: i16, residual: i32);
        fn leaves_hear(history: &mut [i32; 4], weights: &mut [i32; 4], value: i32) -> i16;
        fn leaves_attempt(
            history: &mut [i32; 4],
            weights: &mut [i32; 4],
            sample: i16,
            sf: usize,
            row: &[i32; 8],
            code: &mut u8,
        ) -> u64;
    }

    pub fn qoa_div(v: i32, sf: usize) -> i32 {
        assert!(sf < 16);
        unsafe { leaves_qoa_div(v, sf) }
    }

    pub fn code(quotient: i32) -> i32 {
        unsafe { leaves_code(quotient) as i32 }
    }

    pub fn quick_code(v: i32, sf: usize) -> i32 {
        assert!(sf < 16);
        unsafe { leaves_quick_code(v, sf) as i32 }
    }

    pub fn reciprocal(sf: usize) -> i32 {
        assert!(sf < 16);
        unsafe { leaves_reciprocal(sf) }
    }

    pub fn dequant(sf: usize, code: usize) -> i32 {
        assert!(sf < 16 && code < 8);
        unsafe { leaves_dequant(sf, code) }
    }

    pub fn predict(state: State) -> i32 {
        unsafe { leaves_predict(&state.0, &state.1) }
    }

    pub fn penalty(state: State) -> u32 {
        unsafe { leaves_penalty(&state.0, &state.1) }
    }

    fn in_bounds(state: State) -> bool {
        state.1.iter().all(|w| w.unsigned_abs() <= 1 << 30)
    }

    pub fn update(mut state: State, sample: i16, residual: i32) -> State {
        assert!(in_bounds(state) && residual.unsigned_abs() <= 14336);
        unsafe { leaves_update(&mut state.0, &mut state.1, sample, residual) };
        state
    }

    pub fn hear(mut state: State, value: i32) -> (i16, State) {
        assert!(in_bounds(state) && value.unsigned_abs() <= 14336);
        let sample = unsafe { leaves_hear(&mut state.0, &mut state.1, value) };
        (sample, state)
    }

    /// The cost, the code, and the predictor after the trial.
    pub fn attempt(mut state: State, sample: i16, sf: usize) -> (u64, usize, State) {
        assert!(in_bounds(state) && sf < 16);
        let row = std::array::from_fn(|k| dequant(sf, k));
        let mut code = 0;
        let cost = unsafe { leaves_attempt(&mut state.0, &mut state.1, sample, sf, &row, &mut code) };
        (cost, code as usize, state)
    }
}

/// Ends the program at the first answer that is not the source's.
fn same<I: Debug, A: Debug + PartialEq>(name: &str, input: I, source: A, rattle: A) {
    if source != rattle {
        println!("{name} differs at {input:?}: the source {source:?}, Rattle {rattle:?}");
        std::process::exit(1);
    }
}

fn compared(name: &str, inputs: u64) {
    println!("{name:34} {inputs:9} inputs compared, 0 differences");
}

/// Numbers at and beside 0, every power of two and its negative, and the ends of the type.
fn edges() -> Vec<i32> {
    let mut all = vec![];
    for k in 0..32 {
        for by in -2..=2i64 {
            all.extend([(1i64 << k) + by, by - (1i64 << k)].iter().filter_map(|&x| i32::try_from(x).ok()));
        }
    }
    all.sort();
    all.dedup();
    all
}

fn any(random: &mut Random, edges: &[i32]) -> i32 {
    match random.next() % 6 {
        0 => edges[random.next() as usize % edges.len()],
        1 => random.next() as i32,
        2 => random.sample() as i32,
        3 => random.next() as i32 >> 12,
        4 => random.next() as i32 >> (random.next() % 32),
        _ => [0, 1, -1, 32767, -32768, 32768, -8192, 16384][random.next() as usize % 8],
    }
}

fn four(mut one: impl FnMut() -> i32) -> [i32; 4] {
    [one(), one(), one(), one()]
}

fn tables() {
    for sf in 0..16 {
        same("reciprocal", sf, source::reciprocal(sf), rattle::reciprocal(sf));
        for code in 0..8 {
            same("dequant_tab", (sf, code), source::dequant(sf, code), rattle::dequant(sf, code));
        }
    }
    compared("reciprocal: QOA_RECIPROCAL_TAB", 16);
    compared("dequant_tab: QOA_DEQUANT_TAB", 128);
}

fn division(random: &mut Random, edges: &[i32]) {
    let mut inputs = 0;
    for sf in 0..16 {
        let near = -70_000..=70_000;
        let wide: Vec<i32> = (0..100_000).map(|_| any(random, edges)).collect();
        for v in near.chain(edges.iter().copied()).chain(wide) {
            let quotient = source::qoa_div(v, sf);
            same("qoa_div", (v, sf), quotient, rattle::qoa_div(v, sf));
            same("quick_code", (v, sf), source::code(quotient), rattle::quick_code(v, sf));
            inputs += 1;
        }
    }
    compared("qoa_div, quick_code", inputs);
}

fn codes(random: &mut Random, edges: &[i32]) {
    let mut inputs = 0;
    let wide: Vec<i32> = (0..1_000_000).map(|_| any(random, edges)).collect();
    for q in (-100_000..=100_000).chain(edges.iter().copied()).chain(wide) {
        same("code", q, source::code(q), rattle::code(q));
        inputs += 1;
    }
    compared("code: QOA_QUANT_TAB", inputs);
}

// predict and penalty require nothing: any 32-bit numbers.
fn predictions(random: &mut Random, edges: &[i32]) {
    let inputs = 3_000_000;
    for _ in 0..inputs {
        let state = (four(|| any(random, edges)), four(|| any(random, edges)));
        let (prediction, squared) = source::predict_and_penalty_sq(state);
        let penalty = rattle::penalty(state) as u64;
        same("predict", state, source::predict(state), rattle::predict(state));
        same("predict (the encoder's)", state, prediction, rattle::predict(state));
        same("penalty, squared", state, squared, penalty * penalty);
    }
    compared("predict: both of the source's", inputs);
    compared("penalty: predict_and_penalty_sq", inputs);
}

// Weights in the contract's bound, its ends among them; any history.
fn weight(random: &mut Random, edges: &[i32]) -> i32 {
    match random.next() % 8 {
        0 => 1 << 30,
        1 => -(1 << 30),
        _ => any(random, edges).clamp(-(1 << 30), 1 << 30),
    }
}

fn residual(random: &mut Random) -> i32 {
    match random.next() % 4 {
        0 => [0, 1, -1, 15, 16, -15, -16, -17, 14335, 14336, -14335, -14336][random.next() as usize % 12],
        1 => source::dequant(random.next() as usize % 16, random.next() as usize % 8),
        _ => random.next() as i32 % 14337,
    }
}

fn updates(random: &mut Random, edges: &[i32]) {
    let inputs = 3_000_000;
    for _ in 0..inputs {
        let state = (four(|| any(random, edges)), four(|| weight(random, edges)));
        let (sample, residual) = (random.sample(), residual(random));
        let source = source::update(state, sample, residual);
        same("update", (state, sample, residual), source, rattle::update(state, sample, residual));
    }
    compared("update", inputs);
}

// Twenty samples heard one by one against a file of one slice.
fn heard(random: &mut Random) {
    let inputs = 100_000;
    for _ in 0..inputs {
        let extreme = random.next() % 4 == 0;
        let number = |r: &mut Random| if extreme { [-32768, 32767, 0, -1][r.next() as usize % 4] } else { r.sample() };
        let numbers: Vec<i16> = (0..8).map(|_| number(random)).collect();
        let word = (random.next() as u64) << 32 | random.next() as u64;
        let mut file = b"qoaf\0\0\0\x14\x01\0\xac\x44\0\x14\0\x20".to_vec();
        file.extend(numbers.iter().flat_map(|x| x.to_be_bytes()));
        file.extend(word.to_be_bytes());
        let at = |i: usize| numbers[i] as i32;
        let mut state = ([at(0), at(1), at(2), at(3)], [at(4), at(5), at(6), at(7)]);
        let mut samples = vec![];
        for i in 0..20 {
            let value = rattle::dequant((word >> 60) as usize, (word >> (57 - 3 * i) & 7) as usize);
            let (sample, next) = rattle::hear(state, value);
            samples.push(sample);
            state = next;
        }
        same("hear, twenty samples of", file.clone(), decode_all(&file[..]).unwrap().samples, samples);
    }
    compared("hear: slices of decode_all", inputs);
}

// The sixteen trials of one sample: the first of least cost is the scale factor that the source's search takes.
fn attempts(random: &mut Random, edges: &[i32]) {
    let inputs = 300_000;
    for _ in 0..inputs {
        let history = four(|| random.sample() as i32);
        let wide = random.next() % 2 == 0;
        let state = (history, four(|| if wide { weight(random, edges) } else { random.sample() as i32 }));
        let sample = random.sample();
        let tried: Vec<_> = (0..16).map(|sf| rattle::attempt(state, sample, sf)).collect();
        let best = (0..16).min_by_key(|&sf| (tried[sf].0, sf)).unwrap();
        let (_, code, after) = tried[best];
        same("attempt, the best of", (state, sample), source::one_sample(state, sample), (best, code, after));
    }
    compared("attempt: encode_slice, one sample", inputs);
}

fn main() {
    let mut random = Random(20_260);
    let edges = edges();
    tables();
    division(&mut random, &edges);
    codes(&mut random, &edges);
    predictions(&mut random, &edges);
    updates(&mut random, &edges);
    heard(&mut random);
    attempts(&mut random, &edges);
    println!("no difference");
}
