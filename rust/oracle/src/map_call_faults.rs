//! Calls of height maps with a fault, now and then with later ones beside it.

use crate::map_calls::Lists;
use crate::maps::NOBODY;
use crate::ours::{BEYOND, Call};
use crate::random::Random;
use hosirekar_sys::{CHeightMap, CVec2, CVec3};

/// Puts a fault in, and says which number every call must be refused with.
pub fn put(call: &mut Call, job: &mut CHeightMap, random: &mut Random) -> u32 {
    // Without a cell there is no neighbour to be faulty.
    let last = if call.lists.cells.is_empty() { 2 } else { 3 };
    let number = 1 + random.below(last);
    // A later fault beside it changes nothing.
    let others = (number..=last).filter(|&other| other == number || random.once_in(3));
    for fault in others.collect::<Vec<_>>() {
        match fault {
            1 => shape(call, job, random),
            2 => range(call, job, random),
            _ => stray(&mut call.lists, random),
        }
    }
    number
}

/// A list of another length, an option that is not there, or a mark or a fringe
/// that means nothing.
fn shape(call: &mut Call, job: &mut CHeightMap, random: &mut Random) {
    let entries = (call.marks.len() / 4) as u8;
    match random.below(11) {
        0 => call.lists.cells.push(0.5),
        1 => call.lists.neighbours.push(NOBODY),
        2 if !call.lists.cells.is_empty() => drop(call.lists.cells.pop()),
        3 => {
            job.fringe = 2;
            call.lists.fringe = vec![0.5; call.lists.neighbours.len() + 1];
        }
        4 => {
            job.customs = true;
            call.lists.customs = vec![255; call.lists.neighbours.len() / 6 * 7 + 1];
        }
        5 if !call.lists.neighbours.is_empty() => {
            job.customs = true;
            let mut customs = vec![255; call.lists.neighbours.len() / 6 * 7];
            let at = random.below(customs.len() as u32) as usize;
            customs[at] = entries;
            call.lists.customs = customs;
        }
        6 => (job.caps.given, job.caps.option) = (true, random.pick(&[entries, 254])),
        7 => (job.sides.given, job.sides.option) = (true, random.pick(&[entries, 254])),
        8 => job.fringe = random.pick(&[0, 3, 255]),
        9 => {
            call.numbers.extend([0.0; 9]);
            // No kind of inset has this number.
            call.marks.extend([0, 0, 3, 0]);
        }
        _ => call.corners.push(0.0),
    }
}

/// A number out of range, in a list or among what goes over by value.
fn range(call: &mut Call, job: &mut CHeightMap, random: &mut Random) {
    let beyond = random.pick(&BEYOND);
    let fringe = match job.fringe {
        2 => &mut call.lists.fringe[..],
        _ => &mut [],
    };
    let list = match random.below(5) {
        0 | 1 => &mut call.lists.cells[..],
        2 => fringe,
        3 => &mut call.numbers[..],
        _ => return by_value(job, beyond, random),
    };
    match list.len() {
        0 => call.corners[random.below(12) as usize] = beyond,
        length => list[random.below(length as u32) as usize] = beyond,
    }
}

fn by_value(job: &mut CHeightMap, beyond: f32, random: &mut Random) {
    let three = CVec3 {
        y: beyond,
        ..CVec3::default()
    };
    match random.below(5) {
        0 => (job.range.given, job.range.max) = (true, beyond),
        1 => {
            let at = CVec2 { x: 0.0, y: beyond };
            (job.origin.given, job.origin.at) = (true, at);
        }
        2 => (job.placement.scale.given, job.placement.scale.value) = (true, three),
        3 => (job.placement.offset.given, job.placement.offset.value) = (true, three),
        _ => (job.placement.turn.given, job.placement.turn.third) = (true, three),
    }
}

/// A neighbour that is neither a cell nor none.
fn stray(lists: &mut Lists, random: &mut Random) {
    let cells = lists.neighbours.len() as u32 / 6;
    let at = random.below(lists.neighbours.len() as u32) as usize;
    lists.neighbours[at] = random.pick(&[cells, cells + 1, 65_536.max(cells), NOBODY - 1]);
}
