//! Years, months and pages that cannot be. Only what is made of digits is looked at: people write `to appear`,
//! `1998/99`, `c. 1650`, `xii--xv`, `e12--e20`, and shorten `123--129` to `123--9`.

use std::ops::Range;

/// What is wrong in the value of a field, where in it, and what that is.
pub(crate) struct Wrong {
    pub span: Range<usize>,
    pub message: String,
    pub hint: &'static str,
}

impl Wrong {
    fn new(span: Range<usize>, message: String, hint: &'static str) -> Option<Self> {
        Some(Self {
            span,
            message,
            hint,
        })
    }
}

/// A `year`, a `month` or a `date` that cannot be.
pub(crate) fn wrong_date(field: &[u8], text: &[u8]) -> Option<Wrong> {
    let is = |name: &str| field.eq_ignore_ascii_case(name.as_bytes());
    let span = inside(text);
    if is("year") {
        wrong_year(text, span)
    } else if is("month") {
        wrong_month(text, span)
    } else if is("date") {
        wrong_day(text, span)
    } else {
        None
    }
}

/// What stands inside blanks and braces.
fn inside(text: &[u8]) -> Range<usize> {
    let is_other = |byte: &u8| !byte.is_ascii_whitespace() && !matches!(byte, b'{' | b'}');
    let start = text.iter().position(is_other).unwrap_or(text.len());
    let end = text
        .iter()
        .rposition(is_other)
        .map_or(start, |last| last + 1);
    start..end
}

/// So many bytes of a value are shown.
const MOST: usize = 20;

fn shown(text: &[u8]) -> String {
    String::from_utf8_lossy(text).into_owned()
}

/// Zero, five digits or more, a letter that looks like a digit among them, or a year that no calendar has yet: the
/// Buddhist one has 2,600 at most, and the Hebrew one more than 5,000.
fn wrong_year(text: &[u8], span: Range<usize>) -> Option<Wrong> {
    let year = &text[span.clone()];
    let hint = "a year has four digits";
    match number(year) {
        Some(0) => return Wrong::new(span, "there is no year 0".into(), hint),
        Some(far @ 2600..5000) => {
            let message = format!("the year {far} is far in the future");
            return Wrong::new(span, message, "write the year that is meant");
        }
        _ => {}
    }
    if !(4..MOST).contains(&year.len()) {
        return None;
    }
    let digits = year.iter().filter(|byte| byte.is_ascii_digit()).count();
    if digits == year.len() && digits > 4 {
        let message = format!("the year {} has {digits} digits", shown(year));
        return Wrong::new(span, message, hint);
    }
    let is_like = |byte: &u8| matches!(byte, b'O' | b'o' | b'l' | b'I') || byte.is_ascii_digit();
    if year.len() == 4 && matches!(digits, 2 | 3) && year.iter().all(is_like) {
        let message = format!("the year {} has a letter among its digits", shown(year));
        return Wrong::new(span, message, "write the digit that it looks like");
    }
    None
}

/// A number that is none of a month.
fn wrong_month(text: &[u8], span: Range<usize>) -> Option<Wrong> {
    let month = number(&text[span.clone()])?;
    let message = format!("there is no month {month}");
    let hint = "months are 1 to 12, or the names jan to dec without braces";
    (!(1..=12).contains(&month)).then(|| Wrong::new(span, message, hint))?
}

/// `2014-13` or `2014-02-31`; from 21 on, BibLaTeX's numbers of months are seasons.
fn wrong_day(text: &[u8], span: Range<usize>) -> Option<Wrong> {
    for date in text[span.clone()].split(|byte| *byte == b'/') {
        let mut parts = date.splitn(3, |byte| *byte == b'-');
        let (year, month) = (parts.next()?, parts.next());
        let Some(month) = month.filter(|month| year.len() == 4 && month.len() == 2) else {
            continue;
        };
        let (Some(_), Some(month)) = (number(year), number(month)) else {
            continue;
        };
        if !matches!(month, 1..=12 | 21..=41) {
            let message = format!("there is no month {month}");
            return Wrong::new(span, message, "a date is YYYY-MM-DD");
        }
        let day = parts.next().filter(|day| day.len() == 2).and_then(number);
        if day.is_some_and(|day| day == 0 || day > most_days(month)) {
            let message = format!("there is no day {} in the month {month}", day.unwrap_or(0));
            return Wrong::new(span, message, "a date is YYYY-MM-DD");
        }
    }
    None
}

fn most_days(month: u64) -> u64 {
    match month {
        2 => 29,
        4 | 6 | 9 | 11 => 30,
        _ => 31,
    }
}

/// A number of digits alone, and not of too many.
fn number(text: &[u8]) -> Option<u64> {
    let is_number = text.iter().all(u8::is_ascii_digit) && (1..MOST).contains(&text.len());
    let text = std::str::from_utf8(text).ok()?;
    text.parse().ok().filter(|_| is_number)
}

/// Whether a range of pages ends before it begins. One whose end has fewer digits is shortened: its first digits
/// are those of its beginning.
fn is_backward(first: &[u8], last: &[u8]) -> bool {
    let (Some(from), Some(to)) = (number(first), number(last)) else {
        return false;
    };
    let kept = &first[..first.len().saturating_sub(last.len())];
    to < from && number(&[kept, last].concat()) < Some(from)
}

/// Both ends without the letters that stand before each of them, as in `S10--S5`. An `e` numbers articles, and not
/// pages.
fn without_letters<'a>(first: &'a [u8], last: &'a [u8]) -> (&'a [u8], &'a [u8]) {
    let count = first
        .iter()
        .take_while(|byte| byte.is_ascii_alphabetic())
        .count();
    let is_both = first.get(..count) == last.get(..count) && count < 3 && !first.starts_with(b"e");
    let count = if is_both { count } else { 0 };
    (&first[count..], &last[count..])
}

/// The first range of pages that ends before it begins.
pub(crate) fn wrong_pages(text: &[u8]) -> Option<Wrong> {
    let mut place = 0;
    for range in text.split(|byte| matches!(byte, b',' | b';')) {
        let start = place;
        place += range.len() + 1;
        let own = inside(range);
        let range = &range[own.clone()];
        let Some((first, last)) = ends(range) else {
            continue;
        };
        let (first, last) = without_letters(first, last);
        if is_backward(first, last) {
            let message = format!("the pages {} end before they begin", shown(range));
            let span = start + own.start..start + own.end;
            return Wrong::new(span, message, "write the smaller number first");
        }
    }
    None
}

/// What stands on both sides of a dash.
fn ends(range: &[u8]) -> Option<(&[u8], &[u8])> {
    if range.len() > 2 * MOST {
        return None;
    }
    let word = range.iter().take_while(|byte| byte.is_ascii_alphanumeric());
    let (first, rest) = range.split_at(word.count());
    let rest = rest.trim_ascii_start();
    let behind = ["–", "—"]
        .iter()
        .find_map(|dash| rest.strip_prefix(dash.as_bytes()));
    let dashes = rest.iter().take_while(|byte| **byte == b'-').count();
    let last = match behind {
        Some(behind) => behind,
        None if (1..=3).contains(&dashes) => &rest[dashes..],
        None => return None,
    };
    Some((first, last.trim_ascii_start()))
}

#[cfg(test)]
mod tests {
    use super::*;

    #[test]
    fn dates_that_cannot_be() {
        let of = |field: &str, text: &str| {
            wrong_date(field.as_bytes(), text.as_bytes()).map(|wrong| wrong.message)
        };
        for (field, text, message) in [
            ("year", "20144", "the year 20144 has 5 digits"),
            ("Year", " {19999} ", "the year 19999 has 5 digits"),
            (
                "year",
                "199O",
                "the year 199O has a letter among its digits",
            ),
            (
                "year",
                "l998",
                "the year l998 has a letter among its digits",
            ),
            ("year", "0", "there is no year 0"),
            ("year", "3021", "the year 3021 is far in the future"),
            ("month", "13", "there is no month 13"),
            ("month", "0", "there is no month 0"),
            ("date", "2014-13", "there is no month 13"),
            ("date", "2014-02-30", "there is no day 30 in the month 2"),
            ("date", "2014-02-01/2014-00-01", "there is no month 0"),
        ] {
            assert_eq!(of(field, text), Some(message.into()), "{text}");
        }
        for (field, texts) in [
            (
                "year",
                &[
                    "",
                    "2014",
                    "to appear",
                    "1998/99",
                    "c. 1650",
                    "84",
                    "2014a",
                    "1998--2001",
                    "MMXIV",
                    "{\\noopsort{1973c}}1981",
                ][..],
            ),
            (
                "month",
                &["", "1", "12", "jan", "1-2", "07/08", "June 13", "Spring"],
            ),
            (
                "date",
                &[
                    "",
                    "2014",
                    "2014-02-29",
                    "2014-21",
                    "2014-12-31/..",
                    "/2014-01",
                    "2014/2015",
                    "1650~",
                    "199X",
                    "-0044-03",
                    "2014-02-01T12:00:00",
                    "20140231",
                ],
            ),
            ("note", &["20144", "13"]),
        ] {
            for text in texts {
                assert_eq!(of(field, text), None, "{field} {text}");
            }
        }
    }

    #[test]
    fn pages_that_cannot_be() {
        let of = |text: &'static str| wrong_pages(text.as_bytes()).map(|wrong| &text[wrong.span]);
        assert_eq!(of("45-12"), Some("45-12"));
        assert_eq!(of("1--5, {45 -- 12}"), Some("45 -- 12"));
        assert_eq!(of("450–120"), Some("450–120"));
        assert_eq!(of("99---10"), Some("99---10"));
        assert_eq!(of("123--19"), Some("123--19"));
        assert_eq!(of("1999--2"), Some("1999--2"));
        assert_eq!(of("20—10"), Some("20—10"));
        assert_eq!(of("S269--S268"), Some("S269--S268"));
        for text in [
            "",
            "12",
            "12--45",
            "45--45",
            "123--9",
            "1234-56",
            "24--5",
            "800-6",
            "e12--e10",
            "S12--10",
            "A45--B12",
            "xv--xii",
            "45+",
            "45--",
            "--12",
            "7:45-12",
            "1-58113-001",
            "0123-1--0123-0",
            "12(2)--5",
            "45 f.",
        ] {
            assert_eq!(of(text), None, "{text}");
        }
    }
}
