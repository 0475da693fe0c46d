//! Cells that are kept from one round to the next.

/// So many cells with this in each. Neither doubles them, as a list that grows would, nor holds the old ones meanwhile.
pub fn renew(cells: &mut Vec<u64>, needed: usize, with: u64) {
    cells.clear();
    if cells.capacity() < needed {
        *cells = Vec::new();
        cells.reserve_exact(needed);
    }
    cells.resize(needed, with);
}
