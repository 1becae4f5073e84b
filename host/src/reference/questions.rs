//! Questions on any lent numbers: each whole six is a row, a shorter rest is ignored.

/// The part of the message that holds a row's value; empty if there is no such row or its range
/// leaves the message.
pub fn value<'a>(index: &[u16], message: &'a [u8], row: usize) -> &'a [u8] {
    let Some(row) = index.chunks_exact(6).nth(row) else { return &[] };
    let start = usize::from(row[1]);
    let end = start + usize::from(row[2]);
    message.get(start..end).unwrap_or(&[])
}

/// The lowest row with this count row, instance and tag. The three come as the C interface has
/// them: one above 65,535 finds nothing.
pub fn find(index: &[u16], count_row: u64, instance: u64, tag: u64) -> Option<usize> {
    index.chunks_exact(6).position(|row| {
        u64::from(row[0]) == tag && u64::from(row[4]) == count_row && u64::from(row[5]) == instance
    })
}

/// The lowest row of instance 1, 2 and on of one count row, up to the first that has none.
pub fn walk(index: &[u16], count_row: u64) -> Vec<usize> {
    let lowest = |instance: u64| {
        index
            .chunks_exact(6)
            .position(|row| u64::from(row[4]) == count_row && u64::from(row[5]) == instance)
    };
    (1..).map_while(lowest).collect()
}
