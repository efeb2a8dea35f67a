//! Blocks heard with weights, and what D counts, worked out by hand, by the library and by the paper.

mod block;
mod damage;

use super::Report;

type Case = (&'static str, fn() -> Result<(), String>);

pub fn run() -> Report {
    let cases = [&block::CASES[..], &block::ORDERS, &damage::CASES].concat();
    for (name, case) in &cases {
        case().map_err(|difference| format!("{name}: {difference}"))?;
    }
    Ok(format!("{} cases", cases.len()))
}
