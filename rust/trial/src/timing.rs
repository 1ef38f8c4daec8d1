//! How long a call takes, for the benchmarks.

use crate::programs::output;
use crate::request::{Request, CHECK};
use std::slice::from_ref;
use std::time::{Duration, Instant};

/// What a call gives, and its best time of at least three runs; a first run of over a second is the only one.
pub fn timed<T>(call: impl Fn() -> T) -> (T, Duration) {
    let mut times = Vec::new();
    loop {
        let start = Instant::now();
        let given = call();
        times.push(start.elapsed());
        let spent: Duration = times.iter().sum();
        let enough = times.len() >= 3 && spent > Duration::from_millis(100);
        if enough || times[0] > Duration::from_secs(1) {
            return (given, times.into_iter().min().expect("a run"));
        }
    }
}

/// What a request to the program `calls` costs beyond a check of its sheet, which reads as many bytes and prints as many
/// cells.
pub fn requested(request: &Request, copies: usize) -> Duration {
    let check = Request { call: CHECK, ..request.clone() };
    beyond(from_ref(request), &[check], copies)
}

/// What some requests cost together beyond others: the time of so many copies of them less that of as many of those.
pub fn beyond(requests: &[Request], others: &[Request], copies: usize) -> Duration {
    let [time, less] = [requests, others].map(|requests| {
        let input: Vec<u8> = requests.iter().flat_map(Request::bytes).collect();
        let lines: String = requests.iter().map(|request| format!("{}\n", request.line())).collect();
        let (input, lines) = (input.repeat(copies), lines.repeat(copies));
        let (printed, time) = timed(|| output("calls", input.clone(), 1 << 16));
        assert!(printed == lines.as_bytes(), "call {}: the two give different lines", requests[0].call);
        time
    });
    time.saturating_sub(less) / copies as u32
}

pub fn milliseconds(time: Duration) -> f64 {
    time.as_secs_f64() * 1_000.0
}
