//! What a tool that writes into a lent area does last.

/// Writes an answer to the start of the area: the refusal, 0 if there is none, and how many items were written, 0 beside a
/// refusal. 9, an area shorter than the answer, comes after every other refusal; none changes the area.
pub fn write<T: Copy>(answer: Result<Vec<T>, u8>, area: &mut [T]) -> (u8, usize) {
    let answer = match answer {
        Ok(answer) => answer,
        Err(refusal) => return (refusal, 0),
    };
    let Some(first) = area.get_mut(..answer.len()) else {
        return (9, 0);
    };
    first.copy_from_slice(&answer);
    (0, answer.len())
}
