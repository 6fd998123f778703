//! Encodings with one byte for each character.

use super::tables::{
    CP1250, CP1251, CP1252, CP1253, CP1254, CP1255, CP850, CP852, CP866, ISO8859_15, ISO8859_2,
    ISO8859_5, ISO8859_7, KOI8_R, KOI8_U, MAC_CYRILLIC, MAC_LATIN2, MAC_ROMAN,
};
use super::{Likely, Worth, LEAST};

pub(crate) struct Single {
    label: &'static str,
    iconv: &'static str,
    table: &'static str,
    letters: Letters,
    /// How much rarer it is than the commonest.
    rare: Worth,
}

/// Letters of one script: the frequent ones among those that are not ASCII, and less frequent ones.
#[derive(Clone, Copy, PartialEq, Eq)]
struct Letters {
    frequent: &'static str,
    others: &'static str,
    /// They do not stand in a word with Latin ones.
    is_apart: bool,
}

const WEST: Letters = Letters {
    frequent: "éöüäáíóèñçøåßàêãõúâ",
    others: "ëôîïùûæýšžœþð",
    is_apart: false,
};

const MIDDLE: Letters = Letters {
    frequent: "áéíóöüäčřšžýěłąężśćńůúőű",
    others: "ťďňźľôßăşţîâĺđç",
    is_apart: false,
};

const CYRILLIC: Letters = Letters {
    frequent: "оеаинтсрвлкмдпуя",
    others: "ыьгзбчйхжюшцщэіїєф",
    is_apart: true,
};

const GREEK: Letters = Letters {
    frequent: "αοιετσνηυρπκμλςωάόίέή",
    others: "γδθβφχξζψύώϊϋΐΰ",
    is_apart: true,
};

const TURKISH: Letters = Letters {
    // The small letter of `İ` is `i`.
    frequent: "üıiöşğç",
    others: "âîûé",
    is_apart: false,
};

const HEBREW: Letters = Letters {
    frequent: "יולאהמרתבשנ",
    others: "כחקפדעסגטצזךםןףץ",
    is_apart: true,
};

/// The first of two that make the same of a text is named. CP850 has the letters of CP437.
#[rustfmt::skip]
pub(crate) const SINGLES: [Single; 18] = [
    Single::new("Windows-1252 (Latin-1)", "WINDOWS-1252", CP1252, WEST, 0),
    Single::new("Windows-1250", "WINDOWS-1250", CP1250, MIDDLE, 20),
    Single::new("Latin-2", "ISO-8859-2", ISO8859_2, MIDDLE, 20),
    Single::new("Windows-1251", "WINDOWS-1251", CP1251, CYRILLIC, 10),
    Single::new("KOI8-R", "KOI8-R", KOI8_R, CYRILLIC, 15),
    Single::new("Mac Roman", "MACINTOSH", MAC_ROMAN, WEST, 20),
    Single::new("Latin-9", "ISO-8859-15", ISO8859_15, WEST, 20),
    Single::new("KOI8-U", "KOI8-U", KOI8_U, CYRILLIC, 20),
    Single::new("CP866 (MS-DOS)", "CP866", CP866, CYRILLIC, 20),
    Single::new("ISO 8859-5 (Cyrillic)", "ISO-8859-5", ISO8859_5, CYRILLIC, 25),
    Single::new("Mac Cyrillic", "MAC-CYRILLIC", MAC_CYRILLIC, CYRILLIC, 25),
    Single::new("CP850 (MS-DOS)", "CP850", CP850, WEST, 25),
    Single::new("CP852 (MS-DOS)", "CP852", CP852, MIDDLE, 30),
    Single::new("Mac Central European", "MAC-CENTRALEUROPE", MAC_LATIN2, MIDDLE, 35),
    Single::new("Windows-1253 (Greek)", "WINDOWS-1253", CP1253, GREEK, 20),
    Single::new("ISO 8859-7 (Greek)", "ISO-8859-7", ISO8859_7, GREEK, 20),
    Single::new("Windows-1254 (Turkish)", "WINDOWS-1254", CP1254, TURKISH, 25),
    Single::new("Windows-1255 (Hebrew)", "WINDOWS-1255", CP1255, HEBREW, 25),
];

impl Single {
    const fn new(
        label: &'static str,
        iconv: &'static str,
        table: &'static str,
        letters: Letters,
        rare: Worth,
    ) -> Self {
        Self {
            label,
            iconv,
            table,
            letters,
            rare,
        }
    }

    pub fn likely(&self) -> Likely {
        Likely {
            label: self.label,
            iconv: self.iconv,
            table: Some(self.table),
        }
    }

    /// What a text would be worth; nothing where a byte is no character, or the text makes no sense.
    pub fn worth(&self, text: &[u8]) -> Option<Worth> {
        let text: Vec<char> = self.likely().decoded(text)?.chars().collect();
        let (mut worth, mut count, mut run) = (0, 0, 0);
        for (place, c) in text.iter().copied().enumerate() {
            run = if self.letters.has(c) && !c.is_ascii() {
                run + 1
            } else {
                0
            };
            if c.is_ascii() {
                continue;
            }
            if c == char::REPLACEMENT_CHARACTER {
                return None;
            }
            let near = |place: Option<usize>| place.and_then(|place| text.get(place)).copied();
            let around = Around {
                letters: &self.letters,
                before: near(place.checked_sub(1)).unwrap_or(' '),
                after: near(Some(place + 1)).unwrap_or(' '),
                further: near(place.checked_sub(3)).unwrap_or(' '),
                next: near(Some(place + 2)).unwrap_or(' '),
                run,
            };
            worth += self.letters.worth(c, &around);
            count += 1;
        }
        (count > 0 && worth >= LEAST * count).then_some(worth - self.rare)
    }
}

/// What stands around a character: the characters before and behind it, the third before and the second
/// behind it, and how many letters that are not ASCII end with it.
struct Around<'a> {
    letters: &'a Letters,
    before: char,
    after: char,
    further: char,
    next: char,
    run: usize,
}

impl Around<'_> {
    fn is_in_word(&self) -> bool {
        self.letters.has(self.before) && self.letters.has(self.after)
    }

    fn touches_word(&self) -> bool {
        self.letters.has(self.before) || self.letters.has(self.after)
    }

    /// Whether an apostrophe here is that of `user’s`, or of `l’art` and `qu’un`.
    fn is_apostrophe(&self) -> bool {
        let is_short = !self.letters.has(self.further);
        let is_last = !self.letters.has(self.next);
        self.after == 's' && is_last || is_short && is_vowel(self.after)
    }

    /// Whether a quotation mark here opens or closes something.
    fn is_quoted(&self) -> bool {
        self.letters.has(self.before) != self.letters.has(self.after)
    }
}

impl Letters {
    /// Whether a character is a letter here. Some marks are letters to Unicode or to other scripts, and
    /// ligatures are none that are typed.
    fn has(&self, c: char) -> bool {
        c.is_alphabetic() && (!"ªºˆˇƒµıΩπﬁﬂ".contains(c) || self.frequent.contains(small(c)))
    }

    fn worth(&self, c: char, around: &Around) -> Worth {
        if !self.has(c) {
            return mark(c, around);
        }
        if !around.touches_word() {
            // Words of one letter.
            return if "àáéåóíивскуояаіηο".contains(c) {
                10
            } else {
                -5
            };
        }
        let small = small(c);
        let mut worth = match small {
            _ if self.frequent.contains(small) => 20,
            _ if self.others.contains(small) => 10,
            _ => -10,
        };
        if c.is_uppercase() && !around.before.is_uppercase() {
            worth -= 5;
        }
        let digits = [around.before, around.after].map(|c| c.is_ascii_digit());
        let digits = digits.into_iter().filter(|is_digit| *is_digit).count() as Worth;
        worth - 15 * digits - case(c, around) - self.strange(small, around)
    }

    /// What is unlikely about the letters around this one.
    fn strange(&self, c: char, around: &Around) -> Worth {
        let is_latin = |c: char| Worth::from(c.is_ascii_alphabetic());
        let crowd = match around.run {
            // Scripts are not mixed in a word.
            _ if self.is_apart => 30 * (is_latin(around.before) + is_latin(around.after)),
            0 | 1 => 0,
            // Portuguese is full of `ção`.
            2 if matches!(around.before, 'ç' | 'Ç') => 0,
            2 => 10,
            _ => 30,
        };
        if !around.is_in_word() {
            return crowd;
        }
        // No word has a letter three times in a row.
        if small(around.before) == c && small(around.after) == c {
            return crowd + 60;
        }
        let sides = [around.before, around.after].map(is_vowel);
        crowd
            + match (is_vowel(c), sides) {
                (true, [true, true]) => 15,
                (true, [false, false]) | (false, [true, true]) => -5,
                (false, [false, false]) => 15,
                _ => 0,
            }
    }
}

/// What is unlikely about small and large letters: a large one inside a word, or behind a small one.
fn case(c: char, around: &Around) -> Worth {
    let mut strange = 0;
    if c.is_uppercase() && around.before.is_uppercase() && around.after.is_lowercase() {
        strange += 20;
    }
    if c.is_uppercase() && around.before.is_lowercase() {
        strange += 30;
    }
    if c.is_lowercase() && around.after.is_uppercase() {
        strange += 20;
    }
    strange
}

/// What a character is worth that is no letter.
fn mark(c: char, around: &Around) -> Worth {
    let is_joint = matches!(c, '’' | '–' | '—' | '\u{a0}');
    let is_usual = is_joint || "‘“”…«»„§°€№®©™·•†".contains(c);
    match c {
        '\u{80}'..='\u{9f}' | '\u{2500}'..='\u{25ff}' | '\u{f8ff}' => -50,
        '’' if around.is_in_word() && around.is_apostrophe() => 20,
        '’' if around.is_in_word() && is_vowel(around.before) == is_vowel(around.after) => -5,
        '–' | '—' if around.is_in_word() && around.after.is_lowercase() => 8,
        '“' | '”' | '„' | '«' | '»' if around.is_quoted() => 10,
        _ if is_joint => 5,
        _ if around.is_in_word() => -40,
        _ if is_usual => 5,
        _ if around.touches_word() => -25,
        _ => -15,
    }
}

fn small(c: char) -> char {
    c.to_lowercase().next().unwrap_or(c)
}

fn is_vowel(c: char) -> bool {
    "aeiouyáàâäãåæăąéèêëęěíìîïıóòôöõøőœúùûüůűýÿаеёиоуыэюяіїєαεηιουωάέήίόύώאהויע".contains(small(c))
}
