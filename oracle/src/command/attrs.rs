use super::{read_input, write_out};
use crate::{listing::attributes, reader::read_library};

/// Attributes of the map file on standard input, by passed counts or plays.
pub fn attrs(passed: &[&str]) -> Result<(), String> {
    let passed = passed
        .iter()
        .map(|text| {
            text.parse()
                .map_err(|_| format!("not a passed count: {text:?}"))
        })
        .collect::<Result<Vec<u32>, _>>()?;
    let read = read_library(&read_input()?);
    write_out(attributes(&read, &passed).as_bytes())
}
