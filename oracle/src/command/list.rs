use super::{read_input, write_out};
use crate::{
    listing::listing,
    reader::{read_library, read_program},
};

/// The listing of the map file on standard input.
pub fn list(library: bool) -> Result<(), String> {
    let bytes = read_input()?;
    let read = if library {
        read_library(&bytes)
    } else {
        read_program(&bytes)
    };
    write_out(listing(&read).as_bytes())
}
