//! The words in which a program tells a fault, as docs/FORMATS.md has them.

/// The words of the fault that a line on standard error names as `fault NUMBER: `; `None` where it names none.
pub fn words_in(line: &str) -> Option<&'static str> {
    let (_, behind) = line.split_once(": fault ")?;
    let (number, _) = behind.split_once(':')?;
    Some(match number {
        "0" => "no memory",
        "1" => "an unknown kind, a record that is cut, or bytes left over",
        "2" => "a number out of its range, or a place that isn't there",
        "3" => "roads not in rising order",
        "4" => "a road of cost 0",
        "5" => "the map doesn't hang together",
        "6" => "no room on the posts",
        _ => return None,
    })
}
