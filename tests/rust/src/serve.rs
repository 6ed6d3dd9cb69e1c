//! The model in the place of a driver, so that the comparison itself can be tried.

use crate::model::call::Call;
use crate::model::capture_calls::{MergeCall, PlayCall};
use crate::model::plan::PlanCall;
use crate::model::stamp::Orders;
use crate::protocol::{read_request, write_answer, Asked};
use std::io;

pub fn serve() -> io::Result<()> {
    answer_all(|call: &mut Call| call.run(Orders::EachBusWithLines))
}

pub fn serve_plans() -> io::Result<()> {
    answer_all(PlanCall::run)
}

pub fn serve_merges() -> io::Result<()> {
    answer_all(MergeCall::run)
}

pub fn serve_levels() -> io::Result<()> {
    answer_all(PlayCall::run)
}

fn answer_all<C: Asked>(run: fn(&mut C) -> u32) -> io::Result<()> {
    let mut input = io::BufReader::new(io::stdin());
    let mut output = io::BufWriter::new(io::stdout());
    while let Some(mut call) = read_request::<C>(&mut input)? {
        let answer = run(&mut call);
        write_answer(&mut output, answer, &call)?;
    }
    Ok(())
}
