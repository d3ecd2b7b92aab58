//! Old entries: what the default sets to zero before it plans (document 02, 3/13 and 7/13), and where nothing else is in its way.

use crate::sheet::Sheet;

const READ: u8 = 1;
const WRITE: u8 = 2;

fn enabled(entry: &[u8]) -> bool {
    entry[12] & 1 == 1
}

fn access(entry: &[u8]) -> u8 {
    entry[11] & (READ | WRITE)
}

/// The area with each enabled entry that carries one direction's bit alone set to zero, all sixteen bytes.
pub fn zeroed(fmmus: &[u8; 256]) -> [u8; 256] {
    let mut area = *fmmus;
    for entry in area.chunks_mut(16).filter(|entry| enabled(entry) && [READ, WRITE].contains(&access(entry))) {
        entry.fill(0);
    }
    area
}

/// Whether the default can't answer 15: no enabled entry carries both bits, and none without a bit may be used.
pub fn nothing_in_the_way(sheet: &Sheet, fmmus: &[u8; 256]) -> bool {
    let used = may_use(sheet);
    let mut left = fmmus.chunks(16).enumerate().filter(|(_, entry)| enabled(entry));
    left.all(|(number, entry)| access(entry) != READ | WRITE && (access(entry) != 0 || !used.contains(&number)))
}

/// The entries that a call uses; by CoE also where a direction has no bits and so uses none.
fn may_use(sheet: &Sheet) -> Vec<usize> {
    if sheet.on_coe() {
        return [1, 2].iter().filter_map(|usage| sheet.usages.iter().position(|of_entry| of_entry == usage)).collect();
    }
    (0..sheet.managers.len()).filter(|number| sheet.managers[*number].usage >= 3).collect()
}
