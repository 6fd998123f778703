//! Fields by the Rust, and what is written from 01: names, months, cycles, depth and counts.

use oracle::{Fields, Given, Refusal, Resolved, LEAST_SCRATCH};

/// English month words, as they may be lent, one with its text in the words twice.
const WORDS: &[u8] = b"mayMaymayMai";
const MONTHS: [u32; 8] = [0, 3, 3, 6, 6, 9, 9, 12];

/// The rows of a file that the Rust reads, as numbers.
fn numbers(file: &str) -> Vec<u32> {
    let rows = oracle::read(file.as_bytes()).expect("the Rust reads it");
    let numbers = |row: &oracle::Row| [row.kind, row.detail, row.start, row.end];
    rows.iter().flat_map(numbers).collect()
}

fn fields<'a>(file: &'a str, rows: &'a [u32]) -> Fields<'a> {
    Fields::new(Given {
        file: file.as_bytes(),
        rows,
        months: &MONTHS,
        words: WORDS,
    })
}

/// The first value of a file, not verbatim.
fn first(file: &str) -> Result<Resolved, Refusal> {
    let rows = numbers(file);
    let which = rows.chunks(4).position(|row| row[0] == 5).expect("a value");
    fields(file, &rows).resolve(which, false, LEAST_SCRATCH)
}

fn refused(file: &str, number: u32, start: u32, end: u32) {
    assert_eq!(first(file), Err(Refusal { number, start, end }), "{file}");
}

fn resolved(file: &str, rows: &[u32], text: &str, names: u64) {
    let expected = Resolved {
        rows: rows.into(),
        text: text.into(),
        names,
    };
    assert_eq!(first(file), Ok(expected), "{file}");
}

#[test]
fn names_and_months() {
    // The span's end comes before its start.
    resolved("@b{k,t=a#{y}}@string{a={x}}", &[0, 0, 2, 24, 11], "xy", 1);
    // Of equal month words the first counts, and none where there is a definition.
    resolved("@b{k,t=may}", &[0, 0, 3, 7, 10], "May", 1);
    resolved("@b{k,t=may}@string{may={x}}", &[0, 0, 1, 24, 25], "x", 1);
    // The last definition counts.
    resolved(
        "@b{k,t=a}@string{a={x}}@string{a={y}}",
        &[0, 0, 1, 34, 35],
        "y",
        1,
    );
    refused("@b{k,t=A}@string{a={x}}", 12, 7, 8);
}

#[test]
fn added_refusals() {
    refused("@b{k,t=a}@string{a=b}@string{b={x}#a}", 13, 35, 36);
    // The value of a is no use of a; the name in it is, and opens a.
    refused("@string{a=a}", 13, 10, 11);
    // What is refused before the cycle is met.
    refused("@string{a={x}#b#a}", 12, 14, 15);
    let chain = |names: usize, last: &str| {
        let links = (0..names).map(|i| format!("@string{{a{i}=a{}}}", i + 1));
        links.collect::<String>() + &format!("@string{{a{names}={last}}}")
    };
    // The value of a0 opens a1 up to a32, 32 names; may is one more.
    assert!(first(&chain(32, "{x}")).is_ok_and(|resolved| resolved.names == 32));
    assert!(first(&chain(31, "may")).is_ok_and(|resolved| resolved.names == 32));
    assert!(first(&chain(32, "may")).is_err_and(|refusal| refusal.number == 14));
    assert!(first(&chain(33, "{x}")).is_err_and(|refusal| refusal.number == 14));
    assert!(first(&chain(32, "nothing")).is_err_and(|refusal| refusal.number == 12));
    let many = |names: usize| format!("@string{{b={}{{}}}}", "may#".repeat(names));
    assert!(first(&many(4_096)).is_ok_and(|resolved| resolved.names == 4_096));
    assert!(first(&many(4_097)).is_err_and(|refusal| refusal.number == 15));
    let long = format!("@string{{b={{{}}}}}", "a".repeat(16_385));
    refused(&long, 1, 11, 11 + 16_385);
}

/// All values in the order of the rows, each as alone; and what refuses all of them.
#[test]
fn all_values() {
    let file = "@b{k,t=a#{y},u=no,v={$}}@string{a={x}}";
    let rows = numbers(file);
    let fields = fields(file, &rows);
    let all = fields.resolve_all(&[0, 0, 1, 0], LEAST_SCRATCH).unwrap();
    let which = (0..rows.len() / 4).filter(|row| rows[4 * row] == 5);
    for (which, (value, is_verbatim)) in which.zip(all.iter().zip([false, false, true, false])) {
        assert_eq!(*value, fields.resolve(which, is_verbatim, LEAST_SCRATCH));
    }
    let accepted: Vec<bool> = all.iter().map(Result::is_ok).collect();
    assert_eq!(accepted, [true, false, true, true]);
    let refused = |number| {
        let (start, end) = (0, 0);
        Err(Refusal { number, start, end })
    };
    assert_eq!(fields.resolve_all(&[0; 3], 0), refused(17));
    assert_eq!(fields.resolve_all(&[0; 4], LEAST_SCRATCH - 1), refused(16));
}
