//! The free runs between cells, in order of place. They stand in blocks, each with the length of its longest, so that
//! the lowest run that is long enough is found without a look at all of them.

/// How many runs a block has at most.
const MOST: usize = 64;

#[derive(Clone, Copy)]
struct Hole {
    place: u32,
    length: u32,
}

#[derive(Clone)]
struct Block {
    holes: Vec<Hole>,
    longest: u32,
}

fn longest_of(holes: &[Hole]) -> u32 {
    holes.iter().map(|hole| hole.length).max().unwrap_or(0)
}

/// A block, and a run in it.
type At = (usize, usize);

#[derive(Clone)]
pub struct Holes {
    /// None is empty, but for one that is alone.
    blocks: Vec<Block>,
}

impl Holes {
    pub fn new() -> Holes {
        Holes { blocks: vec![Block { holes: Vec::new(), longest: 0 }] }
    }

    /// The place of the lowest run of this length at least; `None` if there is none.
    pub fn lowest(&self, length: u32) -> Option<u32> {
        let block = self.blocks.iter().find(|block| block.longest >= length)?;
        let hole = block.holes.iter().find(|hole| hole.length >= length)?;
        Some(hole.place)
    }

    /// The length of the run that begins at a place, or 0.
    pub fn length_at(&self, place: u32) -> u32 {
        match self.before(self.above(place)) {
            Some((block, at)) if self.blocks[block].holes[at].place == place => self.blocks[block].holes[at].length,
            _ => 0,
        }
    }

    pub fn longest(&self) -> u32 {
        self.blocks.iter().map(|block| block.longest).max().unwrap_or(0)
    }

    /// Takes so many bytes off the beginning of the run at a place.
    pub fn take(&mut self, place: u32, length: u32) {
        let Some(at) = self.before(self.above(place)) else { return };
        let hole = self.hole(at);
        if hole.length == length {
            self.remove(at);
        } else {
            self.set(at, Hole { place: place + length, length: hole.length - length });
        }
    }

    /// Adds a run, which is joined with those that touch it.
    pub fn give(&mut self, place: u32, length: u32) {
        let above = self.above(place);
        let below = self.before(above).filter(|&at| self.end(at) == place);
        let after = self.at(above).filter(|hole| hole.place == place + length);
        match (below, after) {
            (Some(at), Some(next)) => {
                let hole = self.hole(at);
                self.remove(above);
                self.set(at, Hole { place: hole.place, length: hole.length + length + next.length });
            }
            (Some(at), None) => {
                let hole = self.hole(at);
                self.set(at, Hole { place: hole.place, length: hole.length + length });
            }
            (None, Some(next)) => self.set(above, Hole { place, length: length + next.length }),
            (None, None) => self.insert(above, Hole { place, length }),
        }
    }

    /// Removes the run that ends at a place, and returns where it began; the place itself if there is none.
    pub fn join_top(&mut self, place: u32) -> u32 {
        let block = self.blocks.len() - 1;
        match self.blocks[block].holes.last() {
            Some(&hole) if hole.place + hole.length == place => {
                self.remove((block, self.blocks[block].holes.len() - 1));
                hole.place
            }
            _ => place,
        }
    }

    /// The first run above a place, or where it would stand.
    fn above(&self, place: u32) -> At {
        let block = match self.blocks.len() {
            1 => 0,
            _ => self.blocks.partition_point(|block| block.holes[0].place <= place).saturating_sub(1),
        };
        (block, self.blocks[block].holes.partition_point(|hole| hole.place <= place))
    }

    fn before(&self, (block, at): At) -> Option<At> {
        match at.checked_sub(1) {
            Some(before) => Some((block, before)),
            None => block.checked_sub(1).map(|block| (block, self.blocks[block].holes.len() - 1)),
        }
    }

    /// The run at a place, which may be past the last one of its block.
    fn at(&self, (block, at): At) -> Option<Hole> {
        let holes = &self.blocks[block].holes;
        holes.get(at).or_else(|| self.blocks.get(block + 1)?.holes.first()).copied()
    }

    fn hole(&self, (block, at): At) -> Hole {
        self.blocks[block].holes[at]
    }

    fn end(&self, at: At) -> u32 {
        let hole = self.hole(at);
        hole.place + hole.length
    }

    /// The same place, in the block after it where it is past the last one of its own.
    fn settled(&self, (block, at): At) -> At {
        if at == self.blocks[block].holes.len() { (block + 1, 0) } else { (block, at) }
    }

    fn set(&mut self, at: At, hole: Hole) {
        let (block, at) = self.settled(at);
        let block = &mut self.blocks[block];
        let old = std::mem::replace(&mut block.holes[at], hole);
        if hole.length >= block.longest {
            block.longest = hole.length;
        } else if old.length == block.longest {
            block.longest = longest_of(&block.holes);
        }
    }

    fn remove(&mut self, at: At) {
        let (block, at) = self.settled(at);
        let found = &mut self.blocks[block];
        let old = found.holes.remove(at);
        if old.length == found.longest {
            found.longest = longest_of(&found.holes);
        }
        if found.holes.is_empty() && self.blocks.len() > 1 {
            self.blocks.remove(block);
        }
    }

    fn insert(&mut self, (block, at): At, hole: Hole) {
        let found = &mut self.blocks[block];
        found.holes.insert(at, hole);
        found.longest = found.longest.max(hole.length);
        if found.holes.len() > MOST {
            let holes = found.holes.split_off(MOST / 2);
            found.longest = longest_of(&found.holes);
            let longest = longest_of(&holes);
            self.blocks.insert(block + 1, Block { holes, longest });
        }
    }
}
