//! Prints what the compiler's own library raises and lowers every scalar value to, in the form of
//! crates/casing_cases/stdout; with `--version`, the version of Unicode that it goes by.
//! `host/casing/compare` builds and runs it.

use std::io::Write;

/// Prints a character and its image, if that is not the character itself: 1 if it is printed.
fn line(
    out: &mut impl Write,
    what: &str,
    c: char,
    image: impl Iterator<Item = char>,
) -> std::io::Result<u32> {
    let image: Vec<char> = image.collect();
    if image == [c] {
        return Ok(0);
    }
    write!(out, "{what} {:04x}", c as u32)?;
    for one in image {
        write!(out, " {:04x}", one as u32)?;
    }
    writeln!(out)?;
    Ok(1)
}

fn main() -> std::io::Result<()> {
    let mut out = std::io::stdout().lock();
    if std::env::args().any(|word| word == "--version") {
        let (major, minor, _) = char::UNICODE_VERSION;
        return writeln!(out, "{major}.{minor}");
    }
    let (mut asked, mut raised, mut lowered) = (0, 0, 0);
    for c in '\0'..=char::MAX {
        asked += 1;
        raised += line(&mut out, "upper", c, c.to_uppercase())?;
        lowered += line(&mut out, "lower", c, c.to_lowercase())?;
    }
    writeln!(
        out,
        "{raised} of {asked} characters change when raised, {lowered} when lowered"
    )
}
