//! The default histories find every slip of slips.rs.

use comparison::calls::Head;
use comparison::compare::{run, shrink, Make};
use comparison::histories::{histories, HISTORIES};
use comparison::model::Model;

include!(concat!(env!("OUT_DIR"), "/slips.rs"));

const SEED: u64 = 1;

fn model() -> Box<dyn Head> {
    Box::new(Model::factory())
}

#[test]
fn every_slip_is_found() {
    let mut left: Vec<_> = SLIPS.iter().collect();
    for (index, history) in histories(SEED, HISTORIES).enumerate() {
        left.retain(|(name, slip)| match run(&model, slip, &history) {
            None => true,
            Some(mut difference) => {
                if difference.history.len() < 10_000 {
                    difference = shrink(&model, slip, difference);
                }
                println!("{name}: found in history {index}, {} calls", difference.history.len());
                false
            }
        });
        if left.is_empty() {
            return;
        }
    }
    let names: Vec<_> = left.iter().map(|(name, _)| name).collect();
    panic!("not found: {names:#?}");
}
