//! Merges, lawful and faulty, held to their answers and to every place of the target's lists.

use super::{answer, counts, longer, merge, needs, room_number, shortened, Lengths, Mesh};
use hosirekar_sys::{CAnswer, CCounts};

/// A merge: the counts, how much of the source's lists is given, what the target has and needs, how much
/// of its lists is lent, an index of the source that stands out, and the number that should come.
#[derive(Clone, Copy, Debug)]
pub struct Merge {
    pub source: CCounts,
    pub target: CCounts,
    pub given: Lengths,
    pub own: Lengths,
    pub need: Lengths,
    pub lent: Lengths,
    pub odd: Option<(usize, u16)>,
    pub number: u32,
}

impl Merge {
    /// A merge whose lists have exactly what is needed.
    pub fn exact([vertices, indices, onto, behind]: [usize; 4]) -> Merge {
        let need = needs(vertices + onto, indices + behind);
        Merge {
            source: counts(vertices, indices),
            target: counts(onto, behind),
            given: needs(vertices, indices),
            own: needs(onto, behind),
            need,
            lent: need,
            odd: None,
            number: if vertices + onto > 65_536 { 4 } else { 0 },
        }
    }

    /// With a buffer one short of the need, which is the last fault to be told.
    pub fn tight(mut self, list: Option<usize>) -> Merge {
        if let Some(list) = list {
            self.lent = shortened(self.lent, self.need, list);
            self.number = match self.number {
                0 => room_number(list),
                earlier => earlier,
            };
        }
        self
    }

    /// With an index that is not below the vertex count.
    pub fn unlawful(mut self, odd: Option<(usize, u16)>) -> Merge {
        if odd.is_some() {
            self.odd = odd;
            self.number = 7;
        }
        self
    }

    /// With a list one short of its count: the first four are the source's, the others the target's.
    pub fn short(mut self, list: Option<usize>) -> Merge {
        let Some(list) = list else { return self };
        self.number = 1;
        match list {
            0..4 => self.given = shortened(self.given, self.given, list),
            _ => self.lent = shortened(self.lent, self.own, list - 4),
        }
        self
    }

    /// With lists and buffers longer than needed.
    pub fn longer(mut self) -> Merge {
        (self.given, self.lent) = (longer(self.given), longer(self.lent));
        self
    }

    /// The source with what lies past its counts: an index there is one that no mesh may have.
    fn source_lists(&self) -> Mesh {
        let mut mesh = Mesh::known_from(4, longer(self.given));
        let count = self.source.indices.min(mesh.indices.len());
        mesh.indices.fill(65_535);
        for (place, index) in mesh.indices[..count].iter_mut().enumerate() {
            *index = (place % self.source.vertices.max(1)) as u16;
        }
        if count > 0 && self.source.vertices > 0 {
            mesh.indices[count - 1] = (self.source.vertices - 1) as u16;
        }
        if let Some((place, value)) = self.odd {
            mesh.indices[place] = value;
        }
        mesh
    }

    /// What the target's lists should be after the call, if it is done.
    fn merged(&self, source: &Mesh, mut target: Mesh) -> Mesh {
        let Merge {
            own, need, given, ..
        } = *self;
        let count = std::array::from_fn::<usize, 4, _>(|list| need[list] - own[list]);
        assert!((0..4).all(|list| count[list] <= given[list]));
        target.vertices[own[0]..need[0]].copy_from_slice(&source.vertices[..count[0]]);
        target.normals[own[1]..need[1]].copy_from_slice(&source.normals[..count[1]]);
        target.uvs[own[2]..need[2]].copy_from_slice(&source.uvs[..count[2]]);
        let places = target.indices[own[3]..need[3]].iter_mut();
        for (place, index) in places.zip(&source.indices) {
            *place = (usize::from(*index) + self.target.vertices) as u16;
        }
        target
    }

    fn call(&self, source: &mut Mesh, target: &mut Mesh) -> CAnswer {
        let (from, onto) = (source.front(self.given), target.front(self.lent));
        merge(self.source, from, self.target, onto)
    }

    /// Holds the call to its answer, and every place of the target's lists to what it should be. Returns what
    /// was answered.
    pub fn hold(&self) -> CAnswer {
        let what = format!("{self:?}");
        let room = std::array::from_fn(|list| self.lent[list].max(self.need[list]));
        let (mut source, target) = (self.source_lists(), Mesh::known(longer(room)));
        let wanted = match self.number {
            0 => self.merged(&source, target.clone()),
            _ => target.clone(),
        };
        let merged = counts(self.need[0] / 3, self.need[3]);
        let mut made = target;
        let given = self.call(&mut source, &mut made);
        assert_eq!(given, answer(self.number, merged), "{what}");
        made.hold(&wanted, what);
        given
    }

    /// An index that is not lawful: the last is the count, the last is the greatest, the first is the count.
    pub fn unlawful_indices(&self) -> [Option<(usize, u16)>; 3] {
        let last = self.source.indices - 1;
        let above = self.source.vertices as u16;
        [Some((last, above)), Some((last, 65_535)), Some((0, above))]
    }
}
