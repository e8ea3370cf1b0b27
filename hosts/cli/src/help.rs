//! What the program says of itself.

use crate::failure::Failure;

const ALL: &str = include_str!("help.txt");

/// All of the help, or the part of a command: the lines that name it, and those after
/// them that stand farther to the right.
pub fn of(command: Option<&str>) -> Result<String, Failure> {
    let Some(command) = command else {
        return Ok(ALL.to_string());
    };
    let own = format!("  multisize {command} ");
    let mut lines = ALL.lines().skip_while(|line| !line.starts_with(&own));
    let first = lines.next();
    let first = first.ok_or_else(|| Failure::Usage(format!("there is no command {command}")))?;
    let inside = |line: &&str| line.starts_with("      ") || line.starts_with(&own);
    let rest = lines.take_while(inside);
    let part: Vec<&str> = std::iter::once(first).chain(rest).collect();
    Ok(part.join("\n") + "\n")
}
