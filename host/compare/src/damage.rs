//! Tables that were reached by calls and then damaged: a call on them is refused with 14 and writes nothing, or they
//! are still sound.

use crate::edit::{damaged, edits, Edit};
use crate::image::{decode, encode};
use crate::layer::Layer;
use crate::random::Random;
use crate::run::{Failure, Reached};
use crate::shrink::shrink;
use crate::step::{both, first_difference, verdict, Difference, Expectation, Place, Told};
use crate::summary::Summary;
use rrezhbuta::Tables;
use rrezhbuta_model::errno::EFAULT;
use rrezhbuta_model::{Answer, Call, Model, Unsound};

/// What tables say, or the clause that they break.
fn judged(tables: &Tables<'_>) -> Result<Model, Unsound> {
    let rows = decode(tables).ok_or(Unsound::Length)?;
    Model::from_rows(rows)
}

/// Makes the call on damaged tables on both sides: what it told, and the clause that they break if they are not sound
/// all the same.
fn compare<L: Layer>(
    layer: &mut L,
    tables: Tables<'static>,
    call: &Call,
) -> Result<(Told, Option<Unsound>), Box<Difference>> {
    let before = tables.snapshot();
    layer.load(tables);
    match judged(&before) {
        Ok(model) => {
            let told = Expectation::new(model).step(layer, call)?;
            Ok((told, None))
        }
        // clearing checks lengths only
        Err(clause) if *call == Call::Clear && clause != Unsound::Length => {
            let told = compare_fixed(layer, call, Ok(Answer::Done), &Tables::new())?;
            Ok((told, Some(clause)))
        }
        Err(clause) => {
            let told = compare_fixed(layer, call, Err(EFAULT), &before)?;
            Ok((told, Some(clause)))
        }
    }
}

/// The call has this answer, and the tables are these after it.
fn compare_fixed<L: Layer>(
    layer: &mut L,
    call: &Call,
    expected: Told,
    after: &Tables<'_>,
) -> Result<Told, Box<Difference>> {
    let found = layer.call(call);
    let mut differs = first_difference(after, layer.tables());
    if let Call::Look { thread } = call {
        let part = layer.look_part(*thread);
        differs = differs.or((!part.is_empty()).then(|| (Place::Look, both(&"nothing", &part))));
    }
    verdict(call, expected, found, differs)
}

/// Damages the tables that were reached and makes a call on them.
pub fn damaged_call<L: Layer>(
    layer: &mut L,
    reached: &mut Reached,
    random: &mut Random,
    summary: &mut Summary,
) -> Result<(), Box<Failure>> {
    let mut image = Tables::new();
    encode(reached.model.rows(), &mut image);
    let edits = edits(&image, random);
    let call = reached.generator.call(&reached.model);
    match compare(layer, damaged(&image, &edits), &call) {
        Ok((told, broken)) => {
            summary.count_damaged(&call, &told, broken);
            Ok(())
        }
        Err(difference) => Err(failure(layer, &reached.calls, edits, difference)),
    }
}

/// The changes, and then the calls that led there, made as few as they can be.
fn failure<L: Layer>(
    layer: &mut L,
    calls: &[Call],
    edits: Vec<Edit>,
    difference: Box<Difference>,
) -> Box<Failure> {
    let last = difference.call;
    let mut differs = |calls: &[Call], edits: &[Edit]| {
        let mut model = Model::new();
        for call in calls {
            // a refused call changes nothing, so it falls out when the list is shortened
            let _ = model.call(call);
        }
        let mut image = Tables::new();
        encode(model.rows(), &mut image);
        compare(layer, damaged(&image, edits), &last).err()
    };
    let edits = shrink(&edits, |edits| differs(calls, edits).is_some());
    let mut calls = shrink(calls, |calls| differs(calls, &edits).is_some());
    let difference = differs(&calls, &edits).unwrap_or(difference);
    calls.push(last);
    Box::new(Failure {
        calls,
        damage: edits,
        difference,
    })
}
