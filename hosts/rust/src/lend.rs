//! Tables that are lent to a call and reused.

/// Makes a table long enough for its answer, and says how long it was.
pub(crate) fn lend<T: Clone + Default>(table: &mut Vec<T>, places: usize) -> usize {
    let before = table.len();
    if before < places {
        table.resize(places, T::default());
    }
    before
}

/// Cuts a table to its answer or, after a refusal, to what it was.
pub(crate) fn settle<T>(table: &mut Vec<T>, before: usize, answer: Option<usize>) {
    table.truncate(answer.unwrap_or(before));
}
