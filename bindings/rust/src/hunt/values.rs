use crate::schedule::draw::Draw;

/// Draws the arguments of a script's operations.
#[derive(Debug)]
pub struct Values {
    pub(crate) draw: Draw,
    values: Option<u32>,
    keys: u32,
    // values that no operation has yet
    fresh: Vec<u32>,
}

impl Values {
    /// Values from 1 to so many, or all different ones for so many operations; and keys from 1 on.
    pub(crate) fn new(mut draw: Draw, values: Option<u32>, keys: u32, operations: usize) -> Values {
        let mut fresh = Vec::new();
        if values.is_none() {
            fresh.extend(1..=operations as u32);
            for place in (1..fresh.len()).rev() {
                fresh.swap(place, draw.place(place + 1));
            }
        }
        Values {
            draw,
            values,
            keys,
            fresh,
        }
    }

    fn up_to(&mut self, most: u32) -> u32 {
        1 + self.draw.below(u64::from(most)) as u32
    }

    /// A value.
    pub fn value(&mut self) -> u32 {
        match self.values {
            Some(values) => self.up_to(values),
            None => self.fresh.pop().expect("each operation has a value"),
        }
    }

    /// A key of a map.
    pub fn key(&mut self) -> u32 {
        self.up_to(self.keys)
    }

    /// What a compare-and-swap compares with: 0, or a value.
    pub fn from(&mut self) -> u32 {
        let most = self.values.unwrap_or(3);
        self.draw.below(u64::from(most) + 1) as u32
    }

    /// What a compare-and-swap sets.
    pub fn to(&mut self) -> u32 {
        self.value()
    }
}
