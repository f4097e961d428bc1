//! Holes: allowed rows that some candidates, in place of one or several absent attributes at once, would not leave allowed.

use definitions::questions::Question;

/// A hole of a row: absent columns, and the rows that are not allowed with candidates in their place.
#[derive(PartialEq, Debug)]
pub struct Hole {
    pub columns: Vec<usize>,
    /// Rows that differ from the allowed one in these columns only, and are not allowed.
    pub closed: Vec<usize>,
}

/// Where the rows of a question stand: each column's step, and its candidates that are absent or not.
pub struct Grid {
    steps: Vec<usize>,
    present: Vec<Vec<usize>>,
    absent: Vec<Option<usize>>,
}

impl Grid {
    pub fn new(question: &Question) -> Grid {
        let mut grid = Grid { steps: Vec::new(), present: Vec::new(), absent: Vec::new() };
        let mut step = question.rows();
        for column in &question.columns {
            step /= column.candidates.len();
            grid.steps.push(step);
            let is_present = |n: &usize| column.candidates[*n].value.is_some();
            grid.present.push((0..column.candidates.len()).filter(is_present).collect());
            grid.absent.push((0..column.candidates.len()).find(|n| !is_present(n)));
        }
        grid
    }

    /// The holes of an allowed row: each set of absent columns that must be given at once, and no smaller one of it.
    pub fn holes(&self, row: usize, choices: &[usize], is_listed: &[bool]) -> Vec<Hole> {
        let absent: Vec<usize> = (0..choices.len()).filter(|n| self.absent[*n] == Some(choices[*n])).collect();
        let mut holes: Vec<Hole> = Vec::new();
        for columns in (1..=absent.len()).flat_map(|size| subsets(&absent, size)) {
            if holes.iter().any(|hole| hole.columns.iter().all(|column| columns.contains(column))) {
                continue;
            }
            let given = self.given(row, choices, &columns);
            let closed: Vec<usize> = given.into_iter().filter(|other| !is_listed[*other]).collect();
            if !closed.is_empty() {
                holes.push(Hole { columns, closed });
            }
        }
        holes
    }

    /// The rows with every choice of candidates that are there in these columns.
    fn given(&self, row: usize, choices: &[usize], columns: &[usize]) -> Vec<usize> {
        let mut rows = vec![row];
        for column in columns {
            let first = |row: usize| row - choices[*column] * self.steps[*column];
            rows = rows
                .iter()
                .flat_map(|row| {
                    self.present[*column].iter().map(move |choice| first(*row) + choice * self.steps[*column])
                })
                .collect();
        }
        rows
    }
}

/// All subsets of this size, in order.
fn subsets(all: &[usize], size: usize) -> Vec<Vec<usize>> {
    if size == 0 {
        return vec![Vec::new()];
    }
    let mut found = Vec::new();
    for (index, first) in all.iter().enumerate() {
        for rest in subsets(&all[index + 1..], size - 1) {
            found.push([&[*first], &rest[..]].concat());
        }
    }
    found
}

#[cfg(test)]
mod tests {
    use super::*;
    use crate::reading::read_text;
    use definitions::questions::read_question;

    #[test]
    fn subsets_are_all() {
        assert_eq!(subsets(&[4, 5, 6], 2), [vec![4, 5], vec![4, 6], vec![5, 6]]);
        assert_eq!(subsets(&[4], 1), [vec![4]]);
        assert!(subsets(&[], 1).is_empty());
    }

    // Closed only where both attributes are there: neither alone is a hole, both at once are.
    #[test]
    fn several_absences_at_once_make_a_hole() {
        let text = b"column env.a = absent | 1 | 2\ncolumn env.b = absent | 1";
        let question = read_question(&read_text(text).unwrap().bytes()).unwrap();
        let grid = Grid::new(&question);
        // Rows: (a, b) = (-, -), (-, 1), (1, -), (1, 1), (2, -), (2, 1).
        let is_listed = [true, true, true, false, true, true];
        assert_eq!(grid.holes(0, &[0, 0], &is_listed), [Hole { columns: vec![0, 1], closed: vec![3] }]);
        assert_eq!(grid.holes(1, &[0, 1], &is_listed), [Hole { columns: vec![0], closed: vec![3] }]);
        assert_eq!(grid.holes(2, &[1, 0], &is_listed), [Hole { columns: vec![1], closed: vec![3] }]);
        assert!(grid.holes(4, &[2, 0], &is_listed).is_empty());
    }
}
