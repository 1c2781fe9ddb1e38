//! The CKMS store: entries in blocks.
use crate::*;

/// num, den, n, held, block size, blocks.
pub type Words = [u32; 6];

/// inv(x) = max(1, ⌊2·error·x⌋), x = top / bottom.
pub fn inv([num, den]: Fraction, top: u128, bottom: u128) -> u128 {
    (2 * u128::from(num) * top / (u128::from(den) * bottom)).max(1)
}

/// "Store block size: 1 to 4,096."
fn block_fits(size: u32) -> bool {
    (1..=4_096).contains(&size)
}

/// "A block list has as many places as its entry list."
pub(crate) fn lists_fit(list: &[Entry], blocks: &[u32]) -> bool {
    slots_fit(list.len()) && blocks.len() == list.len()
}

pub(crate) fn sound([num, den, n, held, size, used]: Words, list: &[Entry], blocks: &[u32]) -> bool {
    if !is_error([num, den]) || n > OBSERVATIONS || held as usize > list.len() || used as usize > blocks.len() {
        return false;
    }
    let entries = &list[..held as usize];
    let lengths = &blocks[..used as usize];
    sound_entries(entries, n)
        && entries.iter().all(|e| e[2] <= 3_999_999_999)
        && block_fits(size)
        && lengths.iter().all(|length| (1..=size).contains(length))
        && lengths.iter().map(|&length| u128::from(length)).sum::<u128>() == u128::from(held)
}

/// 1, 4.
fn tested(state: Words, list: &[Entry], blocks: &[u32]) -> Result<(), Number> {
    if !lists_fit(list, blocks) {
        return Err(SLOTS);
    }
    if !sound(state, list, blocks) {
        return Err(DAMAGED);
    }
    Ok(())
}

/// 1, 2, 3. "Opening zeroes all slots, counts and block places."
pub fn open(error: Fraction, size: u32, list: &mut [Entry], blocks: &mut [u32]) -> Result<Words, Number> {
    if !lists_fit(list, blocks) {
        return Err(SLOTS);
    }
    if !is_error(error) {
        return Err(EPSILON);
    }
    if !block_fits(size) {
        return Err(BLOCK);
    }
    list.fill([0; 3]);
    blocks.fill(0);
    Ok([error[0], error[1], 0, 0, size, 0])
}

/// What a sound store holds, block by block.
pub(crate) struct Held {
    error: Fraction,
    size: usize,
    blocks: Vec<Vec<Entry>>,
    /// The most entries and the most blocks at any moment of the call.
    most: (usize, usize),
}

impl Held {
    pub(crate) fn of([num, den, _, held, size, used]: Words, list: &[Entry], blocks: &[u32]) -> Held {
        let mut rest = &list[..held as usize];
        let mut cut = Vec::new();
        for &length in &blocks[..used as usize] {
            let (block, behind) = rest.split_at(length as usize);
            cut.push(block.to_vec());
            rest = behind;
        }
        Held { error: [num, den], size: size as usize, most: (held as usize, used as usize), blocks: cut }
    }

    fn len(&self) -> usize {
        self.blocks.iter().map(Vec::len).sum()
    }

    /// The lists after the call, and how many entries and blocks there are.
    pub(crate) fn put_back(&self, list: &mut [Entry], blocks: &mut [u32]) -> (u32, u32) {
        lay(list, &self.blocks.concat(), self.most.0);
        let lengths: Vec<u32> = self.blocks.iter().map(|block| block.len() as u32).collect();
        lay(blocks, &lengths, self.most.1);
        (self.len() as u32, self.blocks.len() as u32)
    }

    pub(crate) fn insert(&mut self, v: u32) {
        let (block, place, delta) = self.spot(v);
        if self.blocks.is_empty() {
            self.blocks.push(Vec::new());
        }
        self.blocks[block].insert(place, [v, 1, delta]);
        // "A block grown past its size gives its last entry to a new block behind it."
        if self.blocks[block].len() > self.size {
            let last = self.blocks[block].pop().unwrap();
            self.blocks.insert(block + 1, vec![last]);
        }
        self.most = (self.most.0.max(self.len()), self.most.1.max(self.blocks.len()));
    }

    /// The block, the place in it and the delta of a new value.
    fn spot(&self, v: u32) -> (usize, usize, u32) {
        let (Some(first), Some(last)) = (self.blocks.first(), self.blocks.last()) else {
            return (0, 0, 0);
        };
        if first[0][0] >= v {
            return (0, 0, 0);
        }
        if last[last.len() - 1][0] < v {
            return (self.blocks.len() - 1, last.len(), 0);
        }
        let mut block = 0;
        let mut r = 0;
        while self.blocks[block].last().unwrap()[0] < v {
            block += 1;
            // The g-sum of the block moved into, as the original does.
            r += self.blocks[block].iter().map(|e| u128::from(e[1])).sum::<u128>();
        }
        let place = self.blocks[block].iter().filter(|e| e[0] < v).count();
        r += place as u128;
        (block, place, (inv(self.error, r, 1) - 1) as u32)
    }

    pub(crate) fn compress(&mut self) {
        // "With fewer than 3 entries nothing is joined either."
        if self.len() < 3 {
            return;
        }
        self.merge();
        self.join();
    }

    /// "r starts at 1 and grows by 1 per step; current and next merge (v and delta of next, g added, next removed)
    /// when g + g' + delta' ≤ inv(r), else current moves on to next."
    fn merge(&mut self) {
        let mut r = 1;
        let mut current = (0, 0);
        while let Some(next) = self.behind(current) {
            let (c, n) = (self.blocks[current.0][current.1], self.blocks[next.0][next.1]);
            if u128::from(c[1]) + u128::from(n[1]) + u128::from(n[2]) <= inv(self.error, r, 1) {
                self.blocks[current.0][current.1] = [n[0], c[1] + n[1], n[2]];
                self.blocks[next.0].remove(next.1);
            } else {
                current = next;
            }
            r += 1;
        }
    }

    /// The block and place of the entry behind this one.
    fn behind(&self, (block, place): (usize, usize)) -> Option<(usize, usize)> {
        if place + 1 < self.blocks[block].len() {
            return Some((block, place + 1));
        }
        (block + 1..self.blocks.len()).find(|&b| !self.blocks[b].is_empty()).map(|b| (b, 0))
    }

    /// "Neighbours that fit one block are joined, front to back, a joined block being tried again with the next."
    fn join(&mut self) {
        let mut i = 0;
        while i + 1 < self.blocks.len() {
            if self.blocks[i].len() + self.blocks[i + 1].len() <= self.size {
                let behind = self.blocks.remove(i + 1);
                self.blocks[i].extend(behind);
            } else {
                i += 1;
            }
        }
    }
}

/// 1, 4, 5, 6.
pub fn insert(state: &mut Words, list: &mut [Entry], blocks: &mut [u32], v: u32) -> Result<(), Number> {
    tested(*state, list, blocks)?;
    if state[2] == OBSERVATIONS {
        return Err(COUNT);
    }
    if state[3] as usize == list.len() {
        return Err(FULL);
    }
    let mut held = Held::of(*state, list, blocks);
    held.insert(v);
    (state[3], state[5]) = held.put_back(list, blocks);
    state[2] += 1;
    Ok(())
}

/// 1, 4.
pub fn compress(state: &mut Words, list: &mut [Entry], blocks: &mut [u32]) -> Result<(), Number> {
    tested(*state, list, blocks)?;
    let mut held = Held::of(*state, list, blocks);
    held.compress();
    (state[3], state[5]) = held.put_back(list, blocks);
    Ok(())
}

/// 1, 4.
pub fn len(state: Words, list: &[Entry], blocks: &[u32]) -> Result<u32, Number> {
    tested(state, list, blocks)?;
    Ok(state[3])
}

/// 1, 4.
pub fn is_empty(state: Words, list: &[Entry], blocks: &[u32]) -> Result<bool, Number> {
    tested(state, list, blocks)?;
    Ok(state[3] == 0)
}

/// 1, 4, 7, 8: a rank and a value.
pub fn query(state: Words, list: &[Entry], blocks: &[u32], q: Fraction) -> Result<(u32, u32), Number> {
    tested(state, list, blocks)?;
    walk(state, list, q)
}

/// 7, 8, and the walk: "first i ≥ 1 with r + g + delta > qn + inv(qn)/2, compared exactly".
pub(crate) fn walk([num, den, n, held, ..]: Words, list: &[Entry], q: Fraction) -> Result<(u32, u32), Number> {
    if !is_phi(q) {
        return Err(PHI);
    }
    if n == 0 {
        return Err(EMPTY);
    }
    let (top, bottom) = (u128::from(q[0]) * u128::from(n), u128::from(q[1]));
    let limit = 2 * top + inv([num, den], top, bottom) * bottom;
    let entries = &list[..held as usize];
    let mut r = 0;
    for i in 1..entries.len() {
        r += u128::from(entries[i - 1][1]);
        if (r + u128::from(entries[i][1]) + u128::from(entries[i][2])) * 2 * bottom > limit {
            return Ok((r as u32, entries[i - 1][0]));
        }
    }
    Ok((held, entries[entries.len() - 1][0]))
}

#[cfg(test)]
mod tests {
    use super::*;

    #[test]
    fn case_9() {
        let (mut list, mut blocks) = (vec![[5; 3]; 8], vec![5; 8]);
        let mut state = open([1, 2], 2, &mut list, &mut blocks).unwrap();
        for v in [10, 20, 30, 40, 50, 45] {
            insert(&mut state, &mut list, &mut blocks, v).unwrap();
        }
        assert_eq!(list[4], [45, 1, 2]);
    }

    #[test]
    fn case_11() {
        let invs = [0, 998, 1_000].map(|x| inv([1, 1_000], x, 1));
        assert_eq!(invs, [1, 1, 2]);
    }
}
