//! Binary STL files the plain way, written and read, and calls that are held to it.

use super::{first_short, longer, needs, no_room, refused, same, Lengths, Mesh};
use hosirekar_sys::{hosirekar_stl_read, hosirekar_stl_write, CAnswer, CCounts, CFile};

/// How many bytes a file of so many triangles has.
pub fn length(triangles: usize) -> usize {
    84 + 50 * triangles
}

/// How many bytes lie before those that are lent, which so are aligned to nothing.
const FRONT: usize = 5;

/// What stands at each place of so many bytes before a call. None is 0, and neighbours differ.
pub fn known_bytes(length: usize) -> Vec<u8> {
    (0..length).map(|place| (place % 251) as u8 + 1).collect()
}

/// Refused for room in the bytes, of which the whole file has so many.
pub fn no_bytes(need: usize) -> CAnswer {
    CAnswer {
        need,
        ..refused(55)
    }
}

/// The pattern of a number in a file, where every NaN has one.
pub fn filed(x: f32) -> u32 {
    match x.is_nan() {
        true => 0x7fc0_0000,
        false => x.to_bits(),
    }
}

/// A call that writes a file: the counts, the lists and how much of each is given, and how many bytes
/// are lent.
#[derive(Clone, Debug)]
pub struct Writing {
    pub counts: CCounts,
    pub mesh: Mesh,
    pub given: Lengths,
    pub room: usize,
}

impl Writing {
    /// Of a mesh that has nothing past its counts, into bytes that are exact.
    pub fn exact(mesh: Mesh) -> Writing {
        Writing {
            counts: mesh.counts(),
            given: mesh.lengths(),
            room: length(mesh.indices.len() / 3),
            mesh,
        }
    }

    /// The file, or the refusal, by the law.
    pub fn plain(&self) -> Result<Vec<u8>, CAnswer> {
        let CCounts { vertices, indices } = self.counts;
        // In so many bits no product wraps.
        let [v, i] = [vertices, indices].map(|count| count as u128);
        let asked = [3 * v, 3 * v, 2 * v, i].into_iter();
        if asked
            .zip(self.given)
            .any(|(asked, given)| asked > given as u128)
        {
            return Err(refused(1));
        }
        if vertices > 65_536 {
            return Err(refused(4));
        }
        let corners = &self.mesh.indices[..indices];
        if corners
            .iter()
            .any(|corner| usize::from(*corner) >= vertices)
        {
            return Err(refused(7));
        }
        if indices % 3 != 0 {
            return Err(refused(10));
        }
        let need = length(indices / 3);
        if self.room < need {
            return Err(no_bytes(need));
        }
        Ok(self.file())
    }

    fn file(&self) -> Vec<u8> {
        let triangles = self.mesh.indices[..self.counts.indices].chunks(3);
        let mut file = vec![0; 80];
        file.extend((triangles.len() as u32).to_le_bytes());
        for triangle in triangles {
            let [a, b, c] = [0, 1, 2].map(|corner| 3 * usize::from(triangle[corner]));
            let normal = &self.mesh.normals[a..a + 3];
            let corners = [a, b, c].map(|place| &self.mesh.vertices[place..place + 3]);
            let numbers = normal.iter().chain(corners.into_iter().flatten());
            file.extend(numbers.flat_map(|x| filed(*x).to_le_bytes()));
            file.extend([0, 0]);
        }
        file
    }

    /// What the archive answers, which is lent these bytes.
    pub fn call(&self, bytes: &mut [u8]) -> CFile {
        let (mesh, given) = (&self.mesh, self.given);
        hosirekar_stl_write(
            self.counts,
            &mesh.vertices[..given[0]],
            &mesh.normals[..given[1]],
            &mesh.uvs[..given[2]],
            &mesh.indices[..given[3]],
            bytes,
        )
    }

    /// What the plain way answers, and leaves in these bytes.
    fn plain_call(&self, bytes: &mut [u8]) -> CFile {
        match self.plain() {
            Ok(file) => {
                bytes[..file.len()].copy_from_slice(&file);
                CFile {
                    answer: super::answer(0, self.counts),
                    bytes: file.len(),
                }
            }
            Err(answer) => CFile { answer, bytes: 0 },
        }
    }

    /// Where the archive differs from the plain way: in its answer, or in the bytes, lent or about them.
    pub fn difference(&self) -> Option<String> {
        let fresh = known_bytes(FRONT + self.room + 64);
        let (mut made, mut wanted) = (fresh.clone(), fresh);
        let lent = FRONT..FRONT + self.room;
        let given = self.call(&mut made[lent.clone()]);
        let answer = self.plain_call(&mut wanted[lent]);
        if given != answer {
            return Some(format!("answers {given:?}, not {answer:?}"));
        }
        let place = (0..made.len()).find(|place| made[*place] != wanted[*place])?;
        let (made, wanted, place) = (made[place], wanted[place], place as i64 - FRONT as i64);
        Some(format!("byte {place} is {made:02x}, not {wanted:02x}"))
    }

    /// Holds the archive to the plain way, and that to a number. Returns what was answered.
    #[track_caller]
    pub fn hold(&self, number: u32, what: &str) -> CFile {
        let (counts, given, room) = (self.counts, self.given, self.room);
        let what = format!("{what}: {counts:?}, given {given:?}, {room} bytes");
        let plain = self.plain().err().map_or(0, |answer| answer.number);
        assert_eq!(plain, number, "{what}: the plain way");
        if let Some(difference) = self.difference() {
            panic!("{what}: {difference}");
        }
        self.call(&mut known_bytes(room))
    }
}

/// A call that reads a file, and how much is lent of each list.
#[derive(Clone, Debug)]
pub struct Reading {
    pub bytes: Vec<u8>,
    pub lent: Lengths,
}

impl Reading {
    /// Into lists that are exact for so many triangles.
    pub fn exact(bytes: Vec<u8>, triangles: usize) -> Reading {
        let lent = needs(3 * triangles, 3 * triangles);
        Reading { bytes, lent }
    }

    /// The mesh, or the refusal, by the law.
    pub fn plain(&self) -> Result<Mesh, CAnswer> {
        let count = self.bytes.get(80..84).ok_or(refused(11))?;
        let count = u32::from_le_bytes(count.try_into().unwrap());
        if self.bytes.len() as u128 != 84 + 50 * u128::from(count) {
            return Err(refused(11));
        }
        let vertices = 3 * count as usize;
        if vertices > 65_536 {
            return Err(refused(4));
        }
        let need = needs(vertices, vertices);
        match first_short(self.lent, need) {
            Some(list) => Err(no_room(list, need[list])),
            None => Ok(parsed(&self.bytes[84..])),
        }
    }

    /// What the archive answers, which is lent the front of these lists.
    pub fn call(&self, mesh: &mut Mesh) -> CAnswer {
        let to = mesh.front(self.lent);
        let bytes = [&[9; FRONT], &self.bytes[..]].concat();
        let bytes = &bytes[FRONT..];
        hosirekar_stl_read(bytes, to.vertices, to.normals, to.uvs, to.indices)
    }

    /// What the plain way answers, and what it leaves of these lists.
    fn plain_call(&self, fresh: Mesh) -> (CAnswer, Mesh) {
        match self.plain() {
            Ok(mesh) => (super::answer(0, mesh.counts()), fresh.with_front(&mesh)),
            Err(answer) => (answer, fresh),
        }
    }

    /// Where the archive differs from the plain way: in its answer, or in the lists, lent or past them.
    pub fn difference(&self) -> Option<String> {
        let mut made = Mesh::known(longer(self.lent));
        let (answer, wanted) = self.plain_call(made.clone());
        let given = self.call(&mut made);
        if given != answer {
            return Some(format!("answers {given:?}, not {answer:?}"));
        }
        first_unlike(&made, &wanted)
    }

    /// Holds the archive to the plain way, and that to a number. Returns what was answered.
    #[track_caller]
    pub fn hold(&self, number: u32, what: &str) -> CAnswer {
        let what = format!("{what}: {} bytes, lent {:?}", self.bytes.len(), self.lent);
        let plain = self.plain().err().map_or(0, |answer| answer.number);
        assert_eq!(plain, number, "{what}: the plain way");
        if let Some(difference) = self.difference() {
            panic!("{what}: {difference}");
        }
        self.call(&mut Mesh::known(self.lent))
    }
}

/// The mesh of the bytes of triangles.
fn parsed(bytes: &[u8]) -> Mesh {
    let mut mesh = Mesh::known([0; 4]);
    for (place, triangle) in bytes.chunks(50).enumerate() {
        let words = triangle[..48].chunks(4);
        let number = |word: &[u8]| f32::from_le_bytes(word.try_into().unwrap());
        let numbers: Vec<f32> = words.map(number).collect();
        mesh.vertices.extend(&numbers[3..]);
        mesh.normals.extend(numbers[..3].repeat(3));
        mesh.uvs.extend([0.0; 6]);
        mesh.indices
            .extend([0, 1, 2].map(|k| (3 * place + k) as u16));
    }
    mesh
}

/// The first place at which two meshes with lists of the same lengths differ.
pub fn first_unlike(made: &Mesh, wanted: &Mesh) -> Option<String> {
    let lists = [
        ("vertices", &made.vertices, &wanted.vertices),
        ("normals", &made.normals, &wanted.normals),
        ("uvs", &made.uvs, &wanted.uvs),
    ];
    for (name, made, wanted) in lists {
        if let Some(place) = (0..made.len()).find(|k| !same(made[*k], wanted[*k])) {
            let (made, wanted) = (made[place].to_bits(), wanted[place].to_bits());
            return Some(format!("{name}[{place}] is {made:08x}, not {wanted:08x}"));
        }
    }
    let (made, wanted) = (&made.indices, &wanted.indices);
    let place = (0..made.len()).find(|k| made[*k] != wanted[*k])?;
    let (made, wanted) = (made[place], wanted[place]);
    Some(format!("indices[{place}] is {made}, not {wanted}"))
}
