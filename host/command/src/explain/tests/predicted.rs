//! The verdict that the parts of the explanations add up to, in the order of the check.

use crate::code::{Code, Routine};
use crate::explain::needs::{needs, RETURN_ADDRESS};
use crate::explain::paths::Reach;
use crate::explain::{calls, depths, jumps, stores};
use crate::limits::limits_refused;
use gate_host::{Accepted, Limits, Refusal, Refused};

/// Accepted, with the depth at the offset of each start.
pub fn verdict(image: &[u8], limits: &Limits) -> Result<(Accepted, Vec<(usize, i32)>), Refused> {
    if limits_refused(limits) {
        return Err(Refusal::Limits.into());
    }
    let code = Code::read(image)?;
    let mut depths = Vec::new();
    for (number, routine) in code.routines.iter().enumerate() {
        read(routine)?;
        jumps_of(&code, routine)?;
        let reach = Reach::explore(&code, routine);
        for (start, depth) in reached(routine, &reach)?.into_iter().enumerate() {
            at_start(&code, number, start, depth, limits)?;
            depths.push((routine.starts[start].offset, depth));
        }
    }
    let need = RETURN_ADDRESS + needs(&code).last().unwrap().bytes;
    if i32::from(limits.stack.high) - i32::from(limits.stack.low) + 1 < need {
        return Err(Refusal::Stack.into());
    }
    Ok((Accepted { need: need as u16, count: depths.len() as u16 }, depths))
}

fn refused(refusal: Refusal, offset: usize) -> Refused {
    Refused { refusal, offset: offset as u16 }
}

/// 8, 9 and 15.
fn read(routine: &Routine) -> Result<(), Refused> {
    if let Some(stuck) = routine.stuck {
        return Err(refused(stuck.refusal, stuck.offset));
    }
    match routine.starts.last() {
        Some(last) if last.flow.falls() => Err(refused(Refusal::FallsOff, last.offset)),
        _ => Ok(()),
    }
}

/// 13 and 10.
fn jumps_of(code: &Code, routine: &Routine) -> Result<(), Refused> {
    for start in &routine.starts {
        match jumps::fault_of(code, routine, start) {
            Some(jumps::JumpFault::Leaves) => return Err(refused(Refusal::Jump, start.offset)),
            Some(jumps::JumpFault::Into(_)) => return Err(refused(Refusal::IntoInstruction, start.offset)),
            None => {}
        }
    }
    Ok(())
}

/// 6 and 7; else the depths of the starts.
fn reached(routine: &Routine, reach: &Reach) -> Result<Vec<i32>, Refused> {
    let depths = routine.starts.iter().enumerate().map(|(number, start)| {
        let depth = reach.depth(number);
        depth.ok_or(refused(Refusal::Unreached, start.offset))
    });
    let depths = depths.collect::<Result<_, _>>()?;
    match reach.disagreement() {
        Some(_) => Err(refused(Refusal::DepthsDisagree, routine.range.start)),
        None => Ok(depths),
    }
}

/// 11, 12 and 14.
fn at_start(code: &Code, routine: usize, start: usize, depth: i32, limits: &Limits) -> Result<(), Refused> {
    let start = &code.routines[routine].starts[start];
    let refusal = if depths::fault_of(start, depth).is_some() {
        Refusal::DepthRange
    } else if stores::fault_of(start, depth, limits).is_some() {
        Refusal::Store
    } else if calls::fault_of(code, routine, start).is_some() {
        Refusal::Call
    } else {
        return Ok(());
    };
    Err(refused(refusal, start.offset))
}
