//! Changes to a source text that count what they find, so that no change can
//! apply too often or not at all.

/// Fails unless `pattern` occurs exactly `times` times in `text`.
pub fn expect(text: &str, pattern: &str, times: usize) -> Result<(), String> {
    let found = text.matches(pattern).count();
    if found == times {
        Ok(())
    } else {
        Err(format!(
            "expected {times} times, found {found} times: {pattern:?}"
        ))
    }
}

/// Replaces each of the `times` occurrences of `from` by `to`.
pub fn replace(text: &str, from: &str, to: &str, times: usize) -> Result<String, String> {
    expect(text, from, times)?;
    Ok(text.replace(from, to))
}

/// Replaces the only occurrence of `from` by `to`.
pub fn replace_once(text: &str, from: &str, to: &str) -> Result<String, String> {
    replace(text, from, to, 1)
}

/// The text from `start` on, up to and without `end`, or to the last byte
/// where no `end` is given. Each marker must occur exactly once.
pub fn cut<'t>(text: &'t str, start: &str, end: Option<&str>) -> Result<&'t str, String> {
    expect(text, start, 1)?;
    let first = text.find(start).unwrap_or(0);
    let Some(end) = end else {
        return Ok(&text[first..]);
    };
    expect(text, end, 1)?;
    let last = text.find(end).unwrap_or(0);
    if last < first {
        return Err(format!("{end:?} stands before {start:?}"));
    }
    Ok(&text[first..last])
}
