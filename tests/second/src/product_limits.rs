//! The C entries of limits and of plans.

use crate::plan::Plan;
use crate::product::{asked, eight_bytes, halves, Neared};
use std::io;

#[derive(Debug, PartialEq, Eq)]
pub struct Limited {
    pub number: u32,
    pub place: u32,
    pub verdict: u32,
    pub file_unchanged: bool,
}

/// What the entry of a limit returns for its digits and tens.
pub fn limit(file: &[u8], digits: u64, tens: u64) -> io::Result<Limited> {
    let mut numbers = vec![7, file.len()];
    numbers.extend([digits, tens].map(halves).concat());
    let [number, place, verdict, unchanged] = asked(|driver| driver.ask(&numbers, file, &mut []))?;
    Ok(Limited { number, place, verdict, file_unchanged: unchanged == 1 })
}

#[derive(Debug, Default, PartialEq, Eq)]
pub struct Planned {
    pub number: u32,
    pub place: u32,
    pub numerator: u64,
    pub denominator: u64,
}

/// What the planner's entry returns.
pub fn copies(plan: &Plan) -> io::Result<Planned> {
    let reply: [u32; 6] = asked(|driver| driver.ask(&[8], &bytes(plan), &mut []))?;
    let [numerator, denominator] = [2, 4].map(|at| eight_bytes(&reply[at..]));
    Ok(Planned { number: reply[0], place: reply[1], numerator, denominator })
}

/// What the entry of a plan's near chances returns.
pub fn plan_near(plan: &Plan) -> io::Result<Neared> {
    asked(|driver| driver.ask(&[9], &bytes(plan), &mut [])).map(Neared::of)
}

/// A plan as a request holds it.
fn bytes(plan: &Plan) -> Vec<u8> {
    let [loss, rebuild, finish] = plan.weights;
    [plan.copies, loss, rebuild, finish].map(u64::to_ne_bytes).concat()
}
