//! Sheets on one allowance, of a random generator with a fixed seed; the second solver gives the answers.

use super::sharing::FIRST;
use super::Case;
use crate::random::{Random, SEED};
use crate::request::Request;
use crate::studios::{accepted_requests, refused_request};

pub fn cases() -> Vec<Case> {
    let mut random = Random::new(SEED, 70);
    let accepted: Vec<Request> = (0..90).flat_map(|_| some(&mut random, 2)).collect();
    let refused: Vec<Request> = (0..30).map(|_| refused_request(&mut random)).collect();
    accepted.into_iter().chain(refused).map(case).collect()
}

/// Accepted sheets with so many allowances.
fn some(random: &mut Random, count: usize) -> Vec<Request> {
    let mut requests = accepted_requests(random);
    while requests.len() > count {
        requests.swap_remove(random.below(requests.len()));
    }
    requests
}

fn case(request: Request) -> Case {
    let title = "random sheets on one allowance".to_string();
    Case { title, request: Request { first: FIRST, ..request }, by_hand: None }
}
