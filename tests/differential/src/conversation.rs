//! Conversations with one card, state and region carried from each step to the next.

use crate::compare::{self, Class, Difference, Sides};
use crate::inputs::messages::{self, World};
use crate::inputs::{lent, mains};
use crate::random::Random;
use crate::run::Function;

/// A run of calls.
pub fn calls(sides: Sides, random: &mut Random) -> Result<Vec<Class>, Difference> {
    let mut world = messages::world(random);
    let mut classes = Vec::new();
    let longest = if world.size > 16_384 { 3 } else { 14 };
    for _ in 0..random.between(1, longest) {
        messages::change(random, &mut world);
        let message = messages::message(random, &world);
        let reply = messages::reply_buffer(random, world.card.mode);
        if random.once_in(30) {
            let mut bad = messages::badly_lent(random, &world);
            classes.push(compare::call(sides, &mut bad, &message, &reply)?);
        }
        classes.push(compare::call(sides, &mut world, &message, &reply)?);
    }
    Ok(classes)
}

/// Calls, cuts and restarts; answers the kinds of answer that the function in question gave.
pub fn with_cuts(
    sides: Sides,
    random: &mut Random,
    function: Function,
) -> Result<Vec<Class>, Difference> {
    let mut world = messages::world(random);
    let mut classes = Vec::new();
    let longest = if world.size > 16_384 { 3 } else { 14 };
    for _ in 0..random.between(1, longest) {
        messages::change(random, &mut world);
        let step = match random.weighted(&[40, 40, 20]) {
            0 => Function::Call,
            1 => Function::Cut,
            _ => Function::Restart,
        };
        let seen = match step {
            Function::Cut => cut(sides, random, &mut world)?,
            Function::Restart => restart(sides, random, &mut world)?,
            _ => call(sides, random, &mut world)?,
        };
        if step == function {
            classes.extend(seen);
        }
    }
    Ok(classes)
}

fn call(sides: Sides, random: &mut Random, world: &mut World) -> Result<Vec<Class>, Difference> {
    let message = messages::message(random, world);
    let reply = messages::reply_buffer(random, world.card.mode);
    Ok(vec![compare::call(sides, world, &message, &reply)?])
}

fn cut(sides: Sides, random: &mut Random, world: &mut World) -> Result<Vec<Class>, Difference> {
    mains::unlock(random, world);
    let message = mains::message(random, world);
    let place = mains::place(random, world, &message);
    let mut classes = Vec::new();
    if random.once_in(12) {
        let mut bad = messages::badly_lent(random, world);
        classes.push(compare::cut(sides, &mut bad, &message, place)?);
    }
    classes.push(compare::cut(sides, world, &message, place)?);
    Ok(classes)
}

fn restart(sides: Sides, random: &mut Random, world: &mut World) -> Result<Vec<Class>, Difference> {
    mains::expect(random, world);
    let mut classes = Vec::new();
    if random.once_in(6) {
        let mut bad = world.clone();
        bad.size = lent::size(random, world.size, 2);
        bad.region = lent::region(random, bad.size, 2);
        classes.push(compare::restart(sides, &mut bad)?);
    }
    classes.push(compare::restart(sides, world)?);
    Ok(classes)
}
