use crate::error::{answer, DecoderError};
use crate::raw::RLP_NO_ROOM;

/// Puts what a call writes at the end of a vector. The call gets the vector's free room, and once
/// more with the room that it asks for if that is too little.
///
/// # Safety
///
/// `call(out, cap, count)` answers `RLP_OK` only if it wrote the first `count` elements at `out`,
/// at most `cap`, and writes at most `cap` elements there.
pub(crate) unsafe fn fill<T>(
    out: &mut Vec<T>,
    call: impl Fn(*mut T, usize, *mut usize) -> u32,
) -> Result<(), DecoderError> {
    let (mut count, old) = (0, out.len());
    let mut room = out.spare_capacity_mut();
    let mut status = call(room.as_mut_ptr().cast(), room.len(), &mut count);
    if status == RLP_NO_ROOM {
        out.reserve_exact(count);
        room = out.spare_capacity_mut();
        status = call(room.as_mut_ptr().cast(), room.len(), &mut count);
    }
    answer(status)?;
    out.set_len(old + count);
    Ok(())
}
