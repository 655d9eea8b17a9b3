//! The cells of the table that some walk reaches at one step.

/// State (8 bits), weight (6 bits), remainder (12 bits) in one number.
#[derive(Clone, Copy, PartialEq, Eq)]
pub struct Key(u32);

impl Key {
    /// The key of the three numbers.
    pub fn new(state: usize, weight: usize, remainder: u32) -> Key {
        Key(((state as u32) << 6 | weight as u32) << 12 | remainder)
    }

    /// Its state.
    pub fn state(self) -> usize {
        (self.0 >> 18) as usize
    }

    /// Its weight.
    pub fn weight(self) -> usize {
        (self.0 >> 12 & 63) as usize
    }

    /// Its remainder.
    pub fn remainder(self) -> u32 {
        self.0 & 0xFFF
    }
}

/// How many walks there are to one key.
pub struct Cell {
    pub key: Key,
    pub count: u128,
    slot: u32,
}

/// Cells, found by a hash of their key. A slot holds a cell's number plus 1,
/// or 0.
pub struct Layer {
    cells: Vec<Cell>,
    slots: Vec<u32>,
}

impl Layer {
    /// A layer without cells.
    pub fn new() -> Layer {
        Layer {
            cells: Vec::new(),
            slots: vec![0; 64],
        }
    }

    /// The cells, in the order in which they were reached.
    pub fn cells(&self) -> &[Cell] {
        &self.cells
    }

    /// Adds to the cell of the key, up to the greatest number.
    pub fn add(&mut self, key: Key, count: u128) {
        let slot = self.find(key);
        match self.slots[slot] {
            0 => {
                self.cells.push(Cell {
                    key,
                    count,
                    slot: slot as u32,
                });
                self.slots[slot] = self.cells.len() as u32;
                if 2 * self.cells.len() > self.slots.len() {
                    self.grow();
                }
            }
            held => {
                let cell = &mut self.cells[held as usize - 1];
                cell.count = cell.count.saturating_add(count);
            }
        }
    }

    /// The slot that holds the key, or the empty one where it belongs.
    fn find(&self, key: Key) -> usize {
        let bits = self.slots.len().trailing_zeros();
        let mut slot = (key.0.wrapping_mul(0x9E37_79B1) >> (32 - bits)) as usize;
        loop {
            match self.slots[slot] {
                0 => return slot,
                held if self.cells[held as usize - 1].key == key => return slot,
                _ => slot = (slot + 1) & (self.slots.len() - 1),
            }
        }
    }

    fn grow(&mut self) {
        self.slots = vec![0; 2 * self.slots.len()];
        for number in 0..self.cells.len() {
            let slot = self.find(self.cells[number].key);
            self.slots[slot] = number as u32 + 1;
            self.cells[number].slot = slot as u32;
        }
    }

    /// Takes all cells away and keeps the room for them.
    pub fn clear(&mut self) {
        for cell in &self.cells {
            self.slots[cell.slot as usize] = 0;
        }
        self.cells.clear();
    }
}
