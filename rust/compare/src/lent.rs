//! What a call wrote to a lent list.

/// What a call wrote to a list of this length, or its number. The call tells its number
/// and how many entries it wrote: none with a refusal. The entries beyond those told stay.
pub fn written<T: Copy + PartialEq>(
    room: usize,
    fill: T,
    call: impl FnOnce(&mut [T]) -> (u32, usize),
) -> Result<Result<Vec<T>, u32>, String> {
    let mut list = vec![fill; room];
    let (number, count) = call(&mut list);
    if count > room || (number != 0 && count != 0) {
        return Err(format!("number {number} with {count} entries"));
    }
    if list[count..].iter().any(|&entry| entry != fill) {
        return Err(format!(
            "number {number}, and an entry past the first {count} changed"
        ));
    }
    list.truncate(count);
    Ok(if number == 0 { Ok(list) } else { Err(number) })
}

/// The same of a call that writes so many entries unless it refuses, to a list of that
/// length or some entries more.
pub fn filled<T: Copy + PartialEq>(
    length: usize,
    fill: T,
    call: impl FnOnce(&mut [T]) -> u32,
) -> Result<Result<Vec<T>, u32>, String> {
    written(length + length % 4, fill, |list| match call(list) {
        0 => (0, length),
        number => (number, 0),
    })
}

/// What was written, which is a failure where the call refused.
pub fn accepted<T>(result: Result<Vec<T>, u32>) -> Result<Vec<T>, String> {
    result.map_err(|number| format!("refused with {number}"))
}

/// Fails unless a call refused with this number.
pub fn refused<T>(result: Result<Vec<T>, u32>, due: u32) -> Result<(), String> {
    match result.err().unwrap_or(0) {
        number if number == due => Ok(()),
        number => Err(format!("number {number} where {due} is due")),
    }
}

/// Fails with these words unless something holds.
pub fn ensure(holds: bool, what: &str) -> Result<(), String> {
    if holds {
        Ok(())
    } else {
        Err(what.into())
    }
}
