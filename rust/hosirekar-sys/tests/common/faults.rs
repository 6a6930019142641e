//! What is wrong with a job: its lists, its table of options, and the numbers that it carries.

use super::jobs::{HeightMap, Table};
use hosirekar_sys::*;

/// What makes a list or an option of a job wrong, and what to call it.
pub type Fault<J> = (String, Box<dyn Fn(&mut J)>);

pub fn fault<J>(name: impl Into<String>, change: impl Fn(&mut J) + 'static) -> Fault<J> {
    (name.into(), Box::new(change))
}

/// One entry, an inset of the middle.
pub fn table() -> Table {
    Table {
        numbers: vec![0.5, 2.0, 0.25, 0.75, 0.0, 0.125, 1.0, 1.5, 0.5],
        marks: vec![0, 1, 1, 1],
    }
}

/// Every number of a placement another one.
pub fn placement() -> CPlacement {
    let row = |x: f32| CVec3 {
        x,
        y: x + 1.0,
        z: x + 2.0,
    };
    let given = |x| CChoice3 {
        given: true,
        value: row(x),
    };
    CPlacement {
        scale: given(2.0),
        turn: CTurn {
            given: true,
            first: row(3.0),
            second: row(7.0),
            third: row(11.0),
        },
        offset: given(100.0),
    }
}

pub fn vec2(v: &mut CVec2) -> [&mut f32; 2] {
    [&mut v.x, &mut v.y]
}

fn vec3(v: &mut CVec3) -> [&mut f32; 3] {
    [&mut v.x, &mut v.y, &mut v.z]
}

pub fn placement_numbers(p: &mut CPlacement) -> Vec<&mut f32> {
    let CTurn {
        first,
        second,
        third,
        ..
    } = &mut p.turn;
    let five = [
        &mut p.scale.value,
        first,
        second,
        third,
        &mut p.offset.value,
    ];
    five.into_iter().flat_map(vec3).collect()
}

/// A list one short, one longer, and empty.
pub fn list_faults<J: 'static, T: From<u8> + 'static>(
    name: &str,
    list: fn(&mut J) -> &mut Vec<T>,
) -> [Fault<J>; 3] {
    [
        fault(format!("{name} short"), move |j| {
            list(j).pop();
        }),
        fault(format!("{name} long"), move |j| list(j).push(T::from(1))),
        fault(format!("no {name}"), move |j| list(j).clear()),
    ]
}

/// A table whose lists do not fit, that is too long, or that has a mark without a meaning.
pub fn table_faults<J: 'static>(of: fn(&mut J) -> &mut Table) -> Vec<Fault<J>> {
    let mut faults: Vec<Fault<J>> = vec![
        fault("numbers short", move |j| {
            of(j).numbers.pop();
        }),
        fault("numbers long", move |j| of(j).numbers.push(1.0)),
        fault("marks short", move |j| {
            of(j).marks.pop();
        }),
        fault("marks long", move |j| of(j).marks.push(1)),
        fault("65 options", move |j| {
            let table = of(j);
            table.numbers = table.numbers.repeat(65);
            table.marks = table.marks.repeat(65);
        }),
    ];
    for (mark, least) in [2, 2, 3, 2].into_iter().enumerate() {
        for value in [least, 255] {
            let name = format!("mark {mark} is {value}");
            faults.push(fault(name, move |j| of(j).marks[mark] = value));
        }
    }
    faults
}

/// The lists of a map, its table and its mark of a fringe.
pub fn map_faults() -> Vec<Fault<HeightMap>> {
    let mut faults = table_faults(|m: &mut HeightMap| &mut m.table);
    faults.extend(list_faults("cells", |m: &mut HeightMap| &mut m.cells));
    faults.extend(list_faults("neighbours", |m: &mut HeightMap| {
        &mut m.neighbours
    }));
    faults.extend(list_faults("fringe", |m: &mut HeightMap| &mut m.fringe));
    faults.extend(list_faults("customs", |m: &mut HeightMap| &mut m.customs));
    faults.extend(list_faults("corners", |m: &mut HeightMap| &mut m.corners));
    faults.extend([0, 3, 255].map(|mark| {
        fault(format!("fringe {mark}"), move |m: &mut HeightMap| {
            m.job.fringe = mark
        })
    }));
    faults
}
