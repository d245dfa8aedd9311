//! A sheet being made: bodies as pairs, put together with right contents.

use crate::sheet::NONE;

#[derive(Clone, Default)]
pub struct Draft {
    pub rows: Vec<Vec<u16>>,
    pub items: Vec<Vec<u16>>,
}

impl Draft {
    pub fn new() -> Self {
        Draft::default()
    }

    /// The bodies of an accepted sheet.
    pub fn from_bytes(bytes: &[u8]) -> Self {
        let pairs: Vec<u16> =
            bytes.chunks(2).map(|pair| u16::from_le_bytes([pair[0], pair[1]])).collect();
        let (rows, items) = (pairs[0] as usize, pairs[1] as usize);
        let mut offsets: Vec<usize> =
            pairs[2..2 + rows + items].iter().map(|&offset| offset as usize / 2).collect();
        offsets.push(pairs.len());
        let bodies = offsets.windows(2).map(|ends| pairs[ends[0]..ends[1]].to_vec());
        let mut rows_and_items: Vec<Vec<u16>> = bodies.collect();
        let items = rows_and_items.split_off(rows);
        Draft { rows: rows_and_items, items }
    }

    /// The number of this row, which is added if there is none like it.
    pub fn row(&mut self, pairs: &[u16]) -> u16 {
        let found = self.rows.iter().position(|row| row == pairs);
        found.unwrap_or_else(|| {
            self.rows.push(pairs.to_vec());
            self.rows.len() - 1
        }) as u16
    }

    pub fn name(&mut self, name: u16) -> u16 {
        self.row(&[0, name])
    }

    pub fn item(&mut self, pairs: &[&[u16]]) {
        self.items.push(pairs.concat());
    }

    pub fn strct(&mut self, name: u16, fields: &[u16]) {
        self.item(&[&[1, name, 0, 0], &list(fields)]);
    }

    /// A free function without flags.
    pub fn function(&mut self, name: u16, args: &[u16]) {
        self.item(&[&[5, name, 0, 0, 0, NONE], &list(args)]);
    }

    /// Bytes of the whole sheet.
    pub fn len(&self) -> usize {
        let pairs: usize = self.rows.iter().chain(&self.items).map(|body| 1 + body.len()).sum();
        4 + 2 * pairs
    }

    pub fn bytes(&self) -> Vec<u8> {
        let bodies = || self.rows.iter().chain(&self.items);
        let mut pairs = vec![self.rows.len() as u16, self.items.len() as u16];
        let mut offset = 4 + 2 * bodies().count();
        for body in bodies() {
            pairs.push(offset as u16);
            offset += 2 * body.len();
        }
        pairs.extend(bodies().flatten());
        from_pairs(&pairs)
    }
}

/// A count and its entries.
pub fn list(entries: &[u16]) -> Vec<u16> {
    let mut pairs = vec![entries.len() as u16];
    pairs.extend(entries);
    pairs
}

pub fn from_pairs(pairs: &[u16]) -> Vec<u8> {
    pairs.iter().flat_map(|pair| pair.to_le_bytes()).collect()
}
