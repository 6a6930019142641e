//! A table in place of hexx's maps, in the order in which it is filled.

use crate::Hex;

/// What the mesh files ask of a map.
pub trait HexStore<T> {
    /// What stands at `hex`, if anything does.
    fn get(&self, hex: Hex) -> Option<&T>;

    /// All that is stored, in order.
    fn values<'s>(&'s self) -> impl Iterator<Item = &'s T>
    where
        T: 's;

    /// All that is stored, in order, and where.
    fn iter<'s>(&'s self) -> impl Iterator<Item = (Hex, &'s T)>
    where
        T: 's;
}

/// A cell of a height map.
#[derive(Debug, Clone, Copy)]
pub struct Cell {
    /// How high it is.
    pub height: f32,
    /// The numbers of the cells across its six sides.
    pub neighbours: [Option<u32>; 6],
}

impl HexStore<f32> for Vec<Cell> {
    fn get(&self, hex: Hex) -> Option<&f32> {
        let cell = match hex {
            Hex::Zero => return None,
            Hex::Cell(cell) => cell,
            Hex::Beside(cell, side) => self[cell as usize].neighbours[side.0 as usize]?,
        };
        Some(&self[cell as usize].height)
    }

    fn values<'s>(&'s self) -> impl Iterator<Item = &'s f32>
    where
        f32: 's,
    {
        self.as_slice().iter().map(|cell| &cell.height)
    }

    fn iter<'s>(&'s self) -> impl Iterator<Item = (Hex, &'s f32)>
    where
        f32: 's,
    {
        (0..)
            .map(Hex::Cell)
            .zip(self.as_slice())
            .map(|(hex, cell)| (hex, &cell.height))
    }
}
