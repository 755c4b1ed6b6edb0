//! Length-prefixed byte strings: a u32, little-endian, then that many bytes.

use std::io::{self, Read, Write};

/// The next number, or none where the input ends before it.
pub fn read_u32(input: &mut impl Read) -> Result<Option<u32>, String> {
    let bytes = read_bytes(input, 4)?;
    match bytes.as_slice() {
        [] => Ok(None),
        &[a, b, c, d] => Ok(Some(u32::from_le_bytes([a, b, c, d]))),
        _ => Err("the input ends inside a length".to_owned()),
    }
}

/// The next string, or none where the input ends before it.
pub fn read_frame(input: &mut impl Read) -> Result<Option<Vec<u8>>, String> {
    let Some(length) = read_u32(input)? else {
        return Ok(None);
    };
    let bytes = read_bytes(input, length.into())?;
    if bytes.len() < length as usize {
        return Err(format!("the input ends inside a string of {length} bytes"));
    }
    Ok(Some(bytes))
}

pub fn write_frame(output: &mut impl Write, bytes: &[u8]) -> Result<(), String> {
    let length = u32::try_from(bytes.len()).map_err(|_| "a string above 4 GiB".to_owned())?;
    let write = |output: &mut dyn Write| -> io::Result<()> {
        output.write_all(&length.to_le_bytes())?;
        output.write_all(bytes)
    };
    write(output).map_err(|why| why.to_string())
}

/// Takes the next bytes of a frame, or none where fewer are left.
pub fn take<const N: usize>(rest: &mut &[u8]) -> Option<[u8; N]> {
    let (taken, behind) = rest.split_first_chunk()?;
    *rest = behind;
    Some(*taken)
}

/// Up to `count` bytes. Memory grows with what arrives, not with what a prefix claims.
fn read_bytes(input: &mut impl Read, count: u64) -> Result<Vec<u8>, String> {
    let mut bytes = Vec::new();
    input
        .take(count)
        .read_to_end(&mut bytes)
        .map_err(|why| why.to_string())?;
    Ok(bytes)
}
