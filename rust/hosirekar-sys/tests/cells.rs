//! Cells as a list of records: where a load puts each field, what it refuses, and maps through both forms,
//! drawn ones and those of the record that `replay_maps` replays.

mod common;
use common::jobs::{HeightMap, Job, Table};
use common::*;
use hosirekar_sys::*;
use std::path::Path;

const NOBODY: u32 = u32::MAX;

/// Numbers drawn one after another (xorshift).
struct Draws(u64);

impl Draws {
    fn word(&mut self) -> u32 {
        self.0 ^= self.0 << 13;
        self.0 ^= self.0 >> 7;
        self.0 ^= self.0 << 17;
        (self.0 >> 16) as u32
    }

    fn below(&mut self, end: usize) -> usize {
        self.word() as usize % end
    }

    fn any(&mut self) -> f32 {
        f32::from_bits(self.word())
    }

    /// One of a few, so that equal ones meet.
    fn few(&mut self) -> f32 {
        [-1.5, -0.0, 0.0, 0.5, 1.0, 2.0][self.below(6)]
    }
}

/// The lists as the scope has them, field by field.
fn flat(records: &[Cell]) -> (Vec<f32>, Vec<u32>) {
    let mut lists = (Vec::new(), Vec::new());
    for cell in records {
        lists.0.extend([cell.height, cell.x, cell.z]);
        lists.0.extend(cell.ends);
        lists.1.extend(cell.neighbours);
    }
    lists
}

fn records(cells: &[f32], neighbours: &[u32]) -> Vec<Cell> {
    let cells = cells.chunks_exact(27).zip(neighbours.chunks_exact(6));
    let record = |(numbers, beyond): (&[f32], &[u32])| Cell {
        height: numbers[0],
        x: numbers[1],
        z: numbers[2],
        ends: numbers[3..].try_into().unwrap(),
        neighbours: beyond.try_into().unwrap(),
    };
    cells.map(record).collect()
}

/// Bits, with all NaNs equal.
fn bits(numbers: &[f32]) -> Vec<u32> {
    let word = |x: &f32| if x.is_nan() { 0x7fc0_0000 } else { x.to_bits() };
    numbers.iter().map(word).collect()
}

/// Loads into lists of these lengths in which every place is known, and holds every place of them.
fn hold_load(records: &[Cell], lengths: [usize; 2], number: u32) {
    let before: Vec<f32> = (0..lengths[0]).map(|place| known(1, place)).collect();
    let beyond: Vec<u32> = (0..lengths[1]).map(|place| !(place as u32)).collect();
    let (mut cells, mut neighbours) = (before.clone(), beyond.clone());
    let answer = hosirekar_heightmap_load(records, &mut cells, &mut neighbours);
    let what = format!("{} cells into {lengths:?}", records.len());
    let (mut wanted, mut across) = (before, beyond);
    if number == 0 {
        assert_eq!(answer, done(0, 0), "{what}");
        let lists = flat(records);
        wanted[..lists.0.len()].copy_from_slice(&lists.0);
        across[..lists.1.len()].copy_from_slice(&lists.1);
    } else {
        assert_eq!(answer, refused(number), "{what}");
    }
    assert!(bits(&cells) == bits(&wanted), "{what}: cells");
    assert!(neighbours == across, "{what}: neighbours");
}

fn drawn(draws: &mut Draws, n: usize) -> Vec<Cell> {
    let cell = |_| Cell {
        height: draws.any(),
        x: draws.any(),
        z: draws.any(),
        ends: std::array::from_fn(|_| draws.any()),
        neighbours: std::array::from_fn(|_| draws.word()),
    };
    (0..n).map(cell).collect()
}

#[test]
fn a_record_has_no_gaps() {
    assert_eq!(size_of::<Cell>(), 132);
}

#[test]
fn every_field_goes_to_its_place_and_nothing_past_them() {
    let draws = &mut Draws(1);
    for n in (0..40).chain([513, 4_096]) {
        let cells = drawn(draws, n);
        hold_load(&cells, [27 * n, 6 * n], 0);
        hold_load(&cells, [27 * n + 1 + draws.below(60), 6 * n], 0);
        hold_load(&cells, [27 * n, 6 * n + 1 + draws.below(60)], 0);
        hold_load(&cells, [27 * n + 27, 6 * n + 6], 0);
    }
}

#[test]
fn a_list_that_is_too_short_leaves_both() {
    let draws = &mut Draws(2);
    for n in (1..40).chain([513]) {
        let cells = drawn(draws, n);
        hold_load(&cells, [27 * n - 1, 6 * n], 1);
        hold_load(&cells, [27 * n, 6 * n - 1], 1);
        hold_load(&cells, [27 * n - 1, 6 * n - 1], 1);
        hold_load(&cells, [27 * n + 27, 0], 1);
        hold_load(&cells, [0, 6 * n + 6], 1);
        hold_load(&cells, [0, 0], 1);
    }
}

#[test]
fn at_most_65_536_cells() {
    let cells = drawn(&mut Draws(3), 65_537);
    hold_load(&cells[..65_536], [27 * 65_536 + 9, 6 * 65_536 + 9], 0);
    hold_load(&cells, [27 * 65_537 + 9, 6 * 65_537 + 9], 1);
}

/// The map again, its cells loaded from records into longer lists. `None` if its lists are no cells.
fn through_records(map: &HeightMap) -> Option<HeightMap> {
    let n = map.cells.len() / 27;
    if map.cells.len() != 27 * n || map.neighbours.len() != 6 * n {
        return None;
    }
    let records = records(&map.cells, &map.neighbours);
    let (mut cells, mut neighbours) = (vec![7.5; 27 * n + 30], vec![7; 6 * n + 7]);
    let answer = hosirekar_heightmap_load(&records, &mut cells, &mut neighbours);
    assert_eq!(answer, done(0, 0));
    cells.truncate(27 * n);
    neighbours.truncate(6 * n);
    Some(HeightMap {
        cells,
        neighbours,
        ..map.clone()
    })
}

/// A few cells that neighbour any others, with faults now and then.
fn drawn_map(draws: &mut Draws) -> HeightMap {
    let n = draws.below(9);
    let fault = draws.below(8);
    let mut cells: Vec<f32> = (0..27 * n).map(|_| draws.few()).collect();
    let mut neighbours: Vec<u32> = (0..6 * n)
        .map(|_| [NOBODY, draws.below(n) as u32][draws.below(2)])
        .collect();
    if n > 0 && fault == 0 {
        cells[draws.below(27 * n)] = f32::from_bits(BEYOND[draws.below(5)]);
    }
    if n > 0 && fault == 1 {
        neighbours[draws.below(6 * n)] = n as u32;
    }
    let choice = |at: usize| CChoice {
        given: at > 0,
        option: [255, 255, 0][at],
    };
    HeightMap {
        job: CHeightMap {
            caps: choice(draws.below(3)),
            sides: choice(draws.below(3)),
            fringe: 1 + draws.below(2) as u8,
            ..CHeightMap::default()
        },
        cells,
        neighbours,
        fringe: (0..6 * n).map(|_| draws.few()).collect(),
        customs: vec![],
        corners: (0..12).map(|_| draws.few()).collect(),
        table: Table {
            numbers: vec![1.0, 1.0, 0.0, 0.0, 0.0, 0.0, 1.0, 1.0, 0.25],
            marks: vec![0, 0, 1, 1],
        },
    }
}

/// Every call of both answers the same and leaves the same in every place.
fn hold_same(one: &HeightMap, other: &HeightMap) {
    let answer = one.plan();
    assert_eq!(other.plan(), answer);
    assert_eq!(other.faces(), one.faces());
    let room = Mesh::known(longer(needs(answer.vertices, answer.indices)));
    let (mut a, mut b) = (room.clone(), room.clone());
    assert_eq!(other.build(b.all()), one.build(a.all()));
    b.hold(&a, "whole");
    let (mut a, mut b) = (room.clone(), room);
    for face in (0..=one.faces().faces).rev() {
        assert_eq!(other.window(face), one.window(face));
        assert_eq!(other.face(face, b.all()), one.face(face, a.all()));
        b.hold(&a, format_args!("face {face}"));
    }
}

#[test]
fn drawn_maps_through_both_forms() {
    let draws = &mut Draws(4);
    let mut by_number = [0; 10];
    for _ in 0..4_000 {
        let map = drawn_map(draws);
        by_number[map.plan().number as usize] += 1;
        hold_same(&map, &through_records(&map).expect("cells"));
    }
    assert!(by_number[0] > 2_000 && by_number[2] > 100 && by_number[3] > 100);
}

/// The words of the record of `replay_maps`, after the name of its maps.
struct Words(std::vec::IntoIter<String>);

impl Words {
    fn next(&mut self) -> u32 {
        let word = self.0.next().expect("a word");
        u32::from_str_radix(&word, 16).expect("hexadecimal digits")
    }

    fn place(&mut self) -> usize {
        self.next() as usize
    }

    fn number(&mut self) -> f32 {
        f32::from_bits(self.next())
    }

    fn numbers(&mut self, n: usize) -> Vec<f32> {
        (0..n).map(|_| self.number()).collect()
    }

    fn bytes(&mut self, n: usize) -> Vec<u8> {
        (0..n).map(|_| self.next() as u8).collect()
    }

    fn point(&mut self) -> CVec3 {
        let [x, y, z] = std::array::from_fn(|_| self.number());
        CVec3 { x, y, z }
    }

    fn choice3(&mut self) -> CChoice3 {
        let given = self.next() == 1;
        let value = if given {
            self.point()
        } else {
            CVec3::default()
        };
        CChoice3 { given, value }
    }

    fn option(&mut self) -> CChoice {
        let option = self.next();
        CChoice {
            given: option != 0x100,
            option: option as u8,
        }
    }

    fn range(&mut self) -> CRange {
        let given = self.next() == 1;
        let [min, max] = std::array::from_fn(|_| if given { self.number() } else { 0.0 });
        CRange { given, min, max }
    }

    fn turn(&mut self) -> CTurn {
        if self.next() == 0 {
            return CTurn::default();
        }
        let [first, second, third] = std::array::from_fn(|_| self.point());
        CTurn {
            given: true,
            first,
            second,
            third,
        }
    }

    fn origin(&mut self) -> COrigin {
        let given = self.next() == 1;
        let [x, y] = std::array::from_fn(|_| if given { self.number() } else { 0.0 });
        let at = CVec2 { x, y };
        COrigin { given, at }
    }

    fn map(&mut self) -> HeightMap {
        let [cells, neighbours, fringe, customs, corners, numbers, marks] =
            std::array::from_fn(|_| self.place());
        let mut map = HeightMap {
            job: CHeightMap::default(),
            cells: self.numbers(cells),
            neighbours: (0..neighbours).map(|_| self.next()).collect(),
            fringe: self.numbers(fringe),
            customs: self.bytes(customs),
            corners: self.numbers(corners),
            table: Table {
                numbers: self.numbers(numbers),
                marks: self.bytes(marks),
            },
        };
        let (caps, sides, range) = (self.option(), self.option(), self.range());
        let (fringe, customs) = (1 + self.next() as u8, self.next() == 1);
        let (scale, turn, offset) = (self.choice3(), self.turn(), self.choice3());
        map.job = CHeightMap {
            caps,
            sides,
            customs,
            fringe,
            range,
            origin: self.origin(),
            placement: CPlacement {
                scale,
                turn,
                offset,
            },
        };
        map
    }

    /// A run of calls: each must answer as recorded, and the lists in the end have the digest.
    fn hold_run(&mut self, map: &HeightMap, what: &str) {
        let lengths: Lengths = std::array::from_fn(|_| self.place());
        let mut mesh = Mesh {
            vertices: vec![-123_456.75; lengths[0]],
            normals: vec![-123_456.75; lengths[1]],
            uvs: vec![-123_456.75; lengths[2]],
            indices: vec![43_981; lengths[3]],
        };
        for _ in 0..self.place() {
            let answer = match self.next() {
                0xf_4240 => map.plan(),
                0xf_4241 => map.build(mesh.all()),
                face => map.face(face as usize, mesh.all()),
            };
            let wanted = CAnswer {
                number: self.next(),
                spare: 0,
                vertices: self.place(),
                indices: self.place(),
                need: self.place(),
            };
            assert_eq!(answer, wanted, "{what}");
        }
        assert_eq!(digest(&mesh), [self.next(), self.next()], "{what}: digest");
    }
}

/// Two remainders of all words, of which the last 32 bits count.
fn digest(mesh: &Mesh) -> [u32; 2] {
    let mut sums = [1u64; 2];
    let floats = [&mesh.vertices, &mesh.normals, &mesh.uvs];
    let words = floats.into_iter().flat_map(|list| bits(list));
    for word in words.chain(mesh.indices.iter().map(|index| u32::from(*index))) {
        for (sum, factor) in sums.iter_mut().zip([2_654_435_761, 2_246_822_519]) {
            *sum = (*sum * factor + u64::from(word)) % ((1 << 32) + 15);
        }
    }
    sums.map(|sum| sum as u32)
}

#[test]
fn recorded_maps_through_records() {
    let text = std::fs::read_to_string(Path::new("../../crates/replay_maps/stdin")).unwrap();
    let mut words: Vec<String> = text.split_whitespace().map(str::to_string).collect();
    assert_eq!(words.remove(0), "maps");
    let mut words = Words(words.into_iter());
    let (mut loaded, count) = (0, words.next());
    for case in 0..count {
        let map = words.map();
        let other = through_records(&map);
        loaded += u32::from(other.is_some());
        let map = other.unwrap_or(map);
        for run in 0..words.next() {
            words.hold_run(&map, &format!("map {case}, run {run}"));
        }
        assert_eq!(words.next(), 0xe4d, "map {case}: its end");
    }
    // The others have lists of cells or neighbours that are too long or too short.
    assert_eq!((count, loaded), (353, 337));
}
