use crate::{Refusal, Refused, LIMIT};

/// What a call fills, in a vector of exactly that length: asked with no room, the call says how much it needs.
pub fn filled<T: Clone + Default>(mut call: impl FnMut(&mut [T]) -> Result<usize, Refused>) -> Result<Vec<T>, Refused> {
    let needed = match call(&mut []) {
        Err(Refused { refusal: Refusal::NoRoom, place }) => place,
        answer => answer?,
    };
    let mut output = vec![T::default(); needed];
    call(&mut output)?;
    Ok(output)
}

/// One element over the limit is enough to be refused, so no more than that is allocated.
pub fn buffer(room: usize) -> Vec<u32> {
    vec![0; room.min(LIMIT + 1)]
}
