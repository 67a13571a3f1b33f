//! Vectors of exact size.

use crate::Refusal;

/// A vector of zeros; the refusal where there is no memory for it.
pub(crate) fn zeros<T: Clone + Default>(length: usize, refusal: Refusal) -> Result<Vec<T>, Refusal> {
    let mut vector = Vec::new();
    vector.try_reserve_exact(length).map_err(|_| refusal)?;
    vector.resize(length, T::default());
    Ok(vector)
}

/// Calls with an output of this length. It is called with an empty one first: question 9 is the last, so that a call
/// that is refused for another reason takes no memory.
pub(crate) fn filled<T, A>(length: usize, call: impl Fn(&mut [T]) -> Result<A, Refusal>) -> Result<(A, Vec<T>), Refusal>
where
    T: Clone + Default,
{
    match call(&mut []) {
        Err(Refusal::OutputTooShort) => {}
        answer => return Ok((answer?, Vec::new())),
    }
    let mut out = zeros(length, Refusal::OutputTooShort)?;
    let answer = call(&mut out)?;
    Ok((answer, out))
}
