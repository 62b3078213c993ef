//! A table of orders, and document 01's words about it, each by its definition.

pub const ABSENT: i16 = -32768;

#[derive(Clone, PartialEq, Eq, Debug)]
pub struct Table {
    pub n: usize,
    pub entries: Vec<i16>,
}

/// The whole answer: stars are columns from 1.
#[derive(Clone, PartialEq, Eq, Debug)]
pub struct Solved {
    pub additions: Vec<u32>,
    pub stars: Vec<u32>,
    pub heads: Vec<i32>,
    pub sum: i32,
}

/// What is asked of one column: its head, the lowest row that holds it, from 1, and how many rows do.
#[derive(Clone, Copy, PartialEq, Eq, Debug)]
pub struct ColumnHead {
    pub head: i32,
    pub row: u32,
    pub count: u32,
}

impl Table {
    pub fn empty(n: usize) -> Table {
        Table { n, entries: vec![ABSENT; n * n] }
    }

    pub fn order(&self, i: usize, j: usize) -> Option<i32> {
        let entry = self.entries[i * self.n + j];
        if entry == ABSENT { None } else { Some(entry as i32) }
    }

    pub fn set(&mut self, i: usize, j: usize, order: i64) {
        self.entries[i * self.n + j] = order as i16;
    }

    /// A column's head: the largest raised order in it.
    pub fn head(&self, additions: &[u32], j: usize) -> Option<i32> {
        (0..self.n).filter_map(|i| Some(self.order(i, j)? + additions[i] as i32)).max()
    }

    pub fn heads(&self, additions: &[u32]) -> Option<Vec<i32>> {
        (0..self.n).map(|j| self.head(additions, j)).collect()
    }

    /// Document 02's fuller answer, by looking at every row; all 0 in a column with no present order.
    pub fn column_head(&self, additions: &[u32], j: usize) -> ColumnHead {
        let Some(head) = self.head(additions, j) else { return ColumnHead { head: 0, row: 0, count: 0 } };
        let holders: Vec<usize> = (0..self.n).filter(|&i| self.reaches(additions, head, i, j)).collect();
        ColumnHead { head, row: holders[0] as u32 + 1, count: holders.len() as u32 }
    }

    pub fn column_heads(&self, additions: &[u32]) -> Vec<ColumnHead> {
        (0..self.n).map(|j| self.column_head(additions, j)).collect()
    }

    pub fn some_negative(&self) -> bool {
        (0..self.n).any(|i| (0..self.n).any(|j| self.order(i, j).is_some_and(|order| order < 0)))
    }

    pub fn some_head_zero(&self, additions: &[u32]) -> bool {
        (0..self.n).any(|j| self.head(additions, j) == Some(0))
    }

    /// Document 02's index figure: the largest addition, plus one when some head is 0, but not where an order is negative.
    pub fn index(&self, additions: &[u32]) -> u32 {
        let largest = *additions.iter().max().expect("a table has a row");
        if self.some_head_zero(additions) && !self.some_negative() { largest + 1 } else { largest }
    }

    /// Is the place a column maximum?
    pub fn maximum(&self, additions: &[u32], heads: &[i32], i: usize, j: usize) -> bool {
        self.reaches(additions, heads[j], i, j)
    }

    /// Is the place present and, raised, the head?
    fn reaches(&self, additions: &[u32], head: i32, i: usize, j: usize) -> bool {
        self.order(i, j).is_some_and(|order| order + additions[i] as i32 == head)
    }

    /// The total of a transversal's orders as they stand; nothing if one is absent.
    pub fn total(&self, columns: &[usize]) -> Option<i32> {
        columns.iter().enumerate().map(|(i, &j)| self.order(i, j)).sum()
    }

    /// The least additions, none below its floor, under which every place of the transversal is a column maximum; nothing
    /// if there are none. (Each row is raised as far as an order of its star's column asks; if rows still rise after N
    /// rounds they rise for ever.)
    pub fn least_by(&self, columns: &[usize], floors: &[u32]) -> Option<Vec<u32>> {
        let mut additions: Vec<i64> = floors.iter().map(|&v| v as i64).collect();
        for _ in 0..=self.n {
            let mut still = true;
            for (i, &j) in columns.iter().enumerate() {
                let own = self.order(i, j)? as i64;
                for k in 0..self.n {
                    let Some(other) = self.order(k, j) else { continue };
                    let wanted = other as i64 + additions[k] - own;
                    if wanted > additions[i] {
                        additions[i] = wanted;
                        still = false;
                    }
                }
            }
            if still {
                return Some(additions.iter().map(|&v| v as u32).collect());
            }
        }
        None
    }
}
