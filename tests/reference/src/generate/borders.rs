//! Files at every border, which are no chance: each step code, each number of cells, numbers of handlers up to 40, and lengths
//! about the longest. Each comparison takes them before the random ones.
use super::parts::Parts;

/// All of them, sound ones and refused ones.
pub fn borders() -> Vec<Vec<u8>> {
    let codes = (0..=255).map(|code| Parts { cells: 1, scripts: vec![vec![code, 0, 0, 0, 0]], order: vec![0; 6] });
    let last_cell = vec![vec![0, 95, 0, 0, 0, 7, 63, 1]];
    let cells = (0..=255).map(|cells| Parts { cells, scripts: last_cell.clone(), order: vec![0; 5] });
    let handlers = (0..=40).map(|count| Parts { cells: 2, scripts: vec![vec![0, 1]; count], order: (0..=255).collect() });
    let short = Parts { cells: 2, scripts: vec![vec![0, 32, 1]], order: Vec::new() };
    let lengths = (65_533..=65_538).map(|length| short.clone().resized(length, 0));
    codes.chain(cells).chain(handlers).chain(lengths).map(|parts| parts.file()).collect()
}

#[cfg(test)]
mod tests {
    use super::*;
    use crate::schedule::judge;

    #[test]
    fn borders_have_their_numbers() {
        let found: Vec<_> = borders().iter().map(|file| judge(file).err()).collect();
        let count = |number| found.iter().filter(|&&one| one == number).count();
        // 67 codes are known, 32 numbers of cells and 16 of handlers are in range, and 3 files are not too long.
        assert_eq!((found.len(), count(None), count(Some(15)), count(Some(30))), (559, 67 + 32 + 16 + 3, 189, 224 + 25 + 3));
    }
}
