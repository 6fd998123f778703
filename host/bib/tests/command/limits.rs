//! The longest files, of the shapes that need the most rows, in 24 bytes of memory for each byte, and in
//! 48 where they are resolved.

use crate::run::{shell, Run, Scratch};

const LONGEST: usize = 16_777_215;

/// A run that may have so many bytes of address space for each byte of the file, which is more than it
/// may use.
fn within(each: usize, line: &str) -> Run {
    let most = LONGEST * each / 1024;
    shell(&format!("ulimit -v {most}; {line}"))
}

fn within_memory(line: &str) -> Run {
    within(24, line)
}

fn resolved_within_memory(line: &str) -> Run {
    within(48, line)
}

/// A text that repeats to the longest file.
fn longest(head: &str, part: &str, tail: &str) -> Vec<u8> {
    let room = LONGEST - head.len() - tail.len();
    let mut file = head.as_bytes().to_vec();
    file.extend(
        part.as_bytes()
            .iter()
            .cycle()
            .take(room / part.len() * part.len()),
    );
    file.extend(tail.as_bytes());
    file.resize(LONGEST, b'\n');
    file
}

/// Fields of four bytes have three rows each.
#[test]
fn most_rows_read_strictly() {
    let file = Scratch::new("fields.bib", &longest("@a{k,", "a=b,", "}"));
    let name = file.name();
    let rows = 3 + (LONGEST - 6) / 4 * 3;
    within_memory(&format!("$BIB rows {name} | tail -n 1")).is(0, &format!("rows {rows}\n"));
    within_memory(&format!("$BIB rows < {name} | tail -n 1")).is(0, &format!("rows {rows}\n"));
    within_memory(&format!("$BIB pack {name} | wc -c")).is(0, &format!("{}\n", rows * 7));
    within_memory(&format!("$BIB salvage {name} | tail -n 1")).is(0, &format!("rows {rows}\n"));
    // All fields have the same name.
    let sound = "1 entry sound, 0 errors, 0 warnings\n";
    within_memory(&format!(
        "$BIB check --no-resolve --allow duplicate-field {name}"
    ))
    .is(0, sound);
    let first = format!("$BIB check --strict --no-resolve {name} | head -n 1 | cut -d: -f 2-4");
    within_memory(&first).is(0, "1:10: warning\n");
    let first = format!("$BIB check {name} | head -n 1 | cut -d: -f 2-4");
    resolved_within_memory(&first).is(0, "1:8: error\n");
}

/// Names that are used four million times, and as many that are defined.
#[test]
fn most_names_resolved() {
    let head = "@string{b={x}}@a{k,";
    let file = Scratch::new("used.bib", &longest(head, "a=b,", "}"));
    let name = file.name();
    let sound = "1 entry sound, 0 errors, 0 warnings\n";
    resolved_within_memory(&format!("$BIB check --allow duplicate-field {name}")).is(0, sound);
    // That each field is there before is said on standard error.
    let quiet = "2> /dev/null";
    resolved_within_memory(&format!("$BIB show {name} {quiet} | tail -n 1")).is(0, "  a  x\n");
    resolved_within_memory(&format!(
        "$BIB write {name} {quiet} | tail -n 2 | head -n 1"
    ))
    .is(0, "a = {x},\n");
    let values = (LONGEST - head.len() - 1) / 4 + 1;
    resolved_within_memory(&format!("$BIB resolve {name} | grep -c '^bib1 x7b787d$'"))
        .is(0, &format!("{values}\n"));
    let file = Scratch::new("defined.bib", &longest("@string{", "a=1,", "}"));
    let sound = "0 entries sound, 0 errors, 0 warnings\n";
    let name = file.name();
    resolved_within_memory(&format!("$BIB check --allow duplicate-definition {name}")).is(0, sound);
}

/// Pieces of two bytes have two rows each.
#[test]
fn most_rows_salvaged() {
    let mut file = longest("", "@\n", "");
    file[LONGEST - 1] = b'@';
    let file = Scratch::new("pieces.bib", &file);
    let name = file.name();
    within_memory(&format!("$BIB salvage {name} | tail -n 1"))
        .is(0, &format!("rows {}\n", LONGEST + 1));
    let summary = format!("0 entries sound, {} errors, 0 warnings\n", LONGEST / 2 + 1);
    within_memory(&format!("$BIB check {name} | tail -n 1")).is(0, &summary);
}

/// Keys and field names that all differ are compared without more memory.
#[test]
fn most_names() {
    let mut entries = String::new();
    let mut fields = String::from("@a{k,");
    for n in 0.. {
        if fields.len() > LONGEST - 40 {
            break;
        }
        entries += &format!("@a{{{n},}}");
        fields += &format!("a{n}=1,");
    }
    fields.push('}');
    entries.truncate(LONGEST);
    let count = entries.matches(",}").count();
    let entries = Scratch::new(
        "keys.bib",
        &entries.as_bytes()[..=entries.rfind('}').unwrap()],
    );
    let fields = Scratch::new("names.bib", fields.as_bytes());
    within_memory(&format!("$BIB check {}", entries.name()))
        .is(0, &format!("{count} entries sound, 0 errors, 0 warnings\n"));
    resolved_within_memory(&format!("$BIB check {}", fields.name()))
        .is(0, "1 entry sound, 0 errors, 0 warnings\n");
}

/// Short memory is a sentence for the file, and the next one goes on.
#[test]
fn short_memory() {
    let long = Scratch::new("short-memory.bib", &longest("@a{k,", "a=b,", "}"));
    let small = Scratch::new("small.bib", b"@a{k,}");
    let (long, small) = (long.name(), small.name());
    for (work, word) in [
        ("rows", "read"),
        ("salvage", "salvage"),
        ("pack", "pack"),
        ("show", "show"),
        ("write", "write"),
        ("resolve", "resolve"),
    ] {
        let sentence = format!("bib: cannot {word} {long}: out of memory\n");
        shell(&format!("ulimit -v 100000; $BIB {work} {long}")).says(2, &sentence);
    }
    let run = shell(&format!("ulimit -v 100000; $BIB check {long} {small}"));
    let want = Run {
        status: Some(2),
        out: b"1 entry sound, 0 errors, 0 warnings; 1 file not read\n".to_vec(),
        err: format!("bib: cannot check {long}: out of memory\n"),
    };
    assert_eq!(run, want);
}
