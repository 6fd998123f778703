//! Files that are not UTF-8: the guess, and what comes of following it.

use std::io::Write;
use std::process::{Command, Stdio};

use crate::run::{bib, knows};

/// Names and titles, as Python's codecs encode them.
#[rustfmt::skip]
const TEXTS: &[(&str, &str, &[u8])] = &[
    ("cp1252", "Kurt Gödel and André Weil", b"Kurt G\xf6del and Andr\xe9 Weil"),
    ("cp1252", "João Guimarães Rosa: Grande Sertão", b"Jo\xe3o Guimar\xe3es Rosa: Grande Sert\xe3o"),
    ("cp1252", "“Quoted” – l’œuvre", b"\x93Quoted\x94 \x96 l\x92\x9cuvre"),
    ("cp1252", "The user’s guide: a state–of–the–art survey", b"The user\x92s guide: a state\x96of\x96the\x96art survey"),
    ("iso8859_15", "cœur et âme", b"c\xbdur et \xe2me"),
    ("mac_roman", "Kurt Gödel and André Weil", b"Kurt G\x9adel and Andr\x8e Weil"),
    ("mac_roman", "Gabriel García Márquez", b"Gabriel Garc\x92a M\x87rquez"),
    ("mac_roman", "Über die Grundlagen", b"\x86ber die Grundlagen"),
    ("cp1250", "Antonín Dvořák and Karel Čapek", b"Anton\xedn Dvo\xf8\xe1k and Karel \xc8apek"),
    ("cp1250", "Krzysztof Kieślowski and Paul Erdős", b"Krzysztof Kie\x9clowski and Paul Erd\xf5s"),
    ("iso8859_2", "Stanisław Lem and Czesław Miłosz", b"Stanis\xb3aw Lem and Czes\xb3aw Mi\xb3osz"),
    ("iso8859_2", "Příliš žluťoučký kůň", b"P\xf8\xedli\xb9 \xbelu\xbbou\xe8k\xfd k\xf9\xf2"),
    ("cp1251", "Лев Толстой", b"\xcb\xe5\xe2 \xd2\xee\xeb\xf1\xf2\xee\xe9"),
    ("cp1251", "ТРУДЫ МАТЕМАТИЧЕСКОГО ИНСТИТУТА", b"\xd2\xd0\xd3\xc4\xdb \xcc\xc0\xd2\xc5\xcc\xc0\xd2\xc8\xd7\xc5\xd1\xca\xce\xc3\xce \xc8\xcd\xd1\xd2\xc8\xd2\xd3\xd2\xc0"),
    ("koi8_r", "Лев Толстой", b"\xec\xc5\xd7 \xf4\xcf\xcc\xd3\xd4\xcf\xca"),
    ("koi8_r", "о сходимости рядов", b"\xcf \xd3\xc8\xcf\xc4\xc9\xcd\xcf\xd3\xd4\xc9 \xd2\xd1\xc4\xcf\xd7"),
    ("gb18030", "基于深度学习的图像识别方法研究", b"\xbb\xf9\xd3\xda\xc9\xee\xb6\xc8\xd1\xa7\xcf\xb0\xb5\xc4\xcd\xbc\xcf\xf1\xca\xb6\xb1\xf0\xb7\xbd\xb7\xa8\xd1\xd0\xbe\xbf"),
    ("gb18030", "王伟 and 张三", b"\xcd\xf5\xce\xb0 and \xd5\xc5\xc8\xfd"),
    ("big5", "國立臺灣大學資訊工程研究所", b"\xb0\xea\xa5\xdf\xbbO\xc6W\xa4j\xbe\xc7\xb8\xea\xb0T\xa4u\xb5{\xac\xe3\xa8s\xa9\xd2"),
    ("big5", "李遠哲 and 林懷民", b"\xa7\xf5\xbb\xb7\xad\xf5 and \xaaL\xc3h\xa5\xc1"),
    ("euc_kr", "한국어 문법", b"\xc7\xd1\xb1\xb9\xbe\xee \xb9\xae\xb9\xfd"),
    ("euc_kr", "박정희 and 최규하", b"\xb9\xda\xc1\xa4\xc8\xf1 and \xc3\xd6\xb1\xd4\xc7\xcf"),
    ("euc_jp", "夏目漱石 and 川端康成", b"\xb2\xc6\xcc\xdc\xde\xfb\xc0\xd0 and \xc0\xee\xc3\xbc\xb9\xaf\xc0\xae"),
    ("euc_jp", "コンピュータの構造", b"\xa5\xb3\xa5\xf3\xa5\xd4\xa5\xe5\xa1\xbc\xa5\xbf\xa4\xce\xb9\xbd\xc2\xa4"),
    ("cp932", "夏目漱石 and 川端康成", b"\x89\xc4\x96\xda\x9f\xf9\x90\xce and \x90\xec\x92[\x8dN\x90\xac"),
    ("cp932", "複素多様体論 \\ 表", b"\x95\xa1\x91f\x91\xbd\x97l\x91\xcc\x98_ \\ \x95\\"),
    ("cp850", "Jürgen Schröder: Einführung für Anfänger", b"J\x81rgen Schr\x94der: Einf\x81hrung f\x81r Anf\x84nger"),
    ("cp437", "Étude générale des systèmes à côté", b"\x90tude g\x82n\x82rale des syst\x8ames \x85 c\x93t\x82"),
    ("cp850", "Ações e lições: introdução à programação", b"A\x87\xe4es e li\x87\xe4es: introdu\x87\xc6o \x85 programa\x87\xc6o"),
    ("cp852", "Dvořák and Černý: Úvod do teorie množin", b"Dvo\xfd\xa0k and \xacern\xec: \xe9vod do teorie mno\xa7in"),
    ("cp852", "Zarys dziejów książki polskiej w Łodzi", b"Zarys dziej\xa2w ksi\xa5\xbeki polskiej w \x9dodzi"),
    ("cp866", "Введение в теорию множеств", b"\x82\xa2\xa5\xa4\xa5\xad\xa8\xa5 \xa2 \xe2\xa5\xae\xe0\xa8\xee \xac\xad\xae\xa6\xa5\xe1\xe2\xa2"),
    ("iso8859_5", "Колмогоров: Основные понятия теории", b"\xba\xde\xdb\xdc\xde\xd3\xde\xe0\xde\xd2: \xbe\xe1\xdd\xde\xd2\xdd\xeb\xd5 \xdf\xde\xdd\xef\xe2\xd8\xef \xe2\xd5\xde\xe0\xd8\xd8"),
    ("mac_cyrillic", "Введение в теорию множеств", b"\x82\xe2\xe5\xe4\xe5\xed\xe8\xe5 \xe2 \xf2\xe5\xee\xf0\xe8\xfe \xec\xed\xee\xe6\xe5\xf1\xf2\xe2"),
    ("koi8_u", "Історія української літератури", b"\xb6\xd3\xd4\xcf\xd2\xa6\xd1 \xd5\xcb\xd2\xc1\xa7\xce\xd3\xd8\xcb\xcf\xa7 \xcc\xa6\xd4\xc5\xd2\xc1\xd4\xd5\xd2\xc9"),
    ("mac_latin2", "Příliš žluťoučký kůň úpěl ďábelské ódy", b"P\xde\x92li\xe4 \xeclu\xe9ou\x8bk\xf9 k\xf3\xcb \x9cp\x9el \x93\x87belsk\x8e \x97dy"),
    ("cp1253", "Εισαγωγή στη θεωρία συνόλων", b"\xc5\xe9\xf3\xe1\xe3\xf9\xe3\xde \xf3\xf4\xe7 \xe8\xe5\xf9\xf1\xdf\xe1 \xf3\xf5\xed\xfc\xeb\xf9\xed"),
    ("iso8859_7", "Άλγεβρα και γεωμετρία", b"\xb6\xeb\xe3\xe5\xe2\xf1\xe1 \xea\xe1\xe9 \xe3\xe5\xf9\xec\xe5\xf4\xf1\xdf\xe1"),
    ("cp1254", "Yılmaz and Şahin: Türkçe öğretim yöntemleri ve dilbilgisine giriş", b"Y\xfdlmaz and \xdeahin: T\xfcrk\xe7e \xf6\xf0retim y\xf6ntemleri ve dilbilgisine giri\xfe"),
    ("cp1255", "\u{5de}\u{5d1}\u{5d5}\u{5d0} \u{5dc}\u{5ea}\u{5d5}\u{5e8}\u{5ea} \u{5d4}\u{5e7}\u{5d1}\u{5d5}\u{5e6}\u{5d5}\u{5ea} \u{5d5}\u{5d9}\u{5d9}\u{5e9}\u{5d5}\u{5de}\u{5d9}\u{5d4}", b"\xee\xe1\xe5\xe0 \xec\xfa\xe5\xf8\xfa \xe4\xf7\xe1\xe5\xf6\xe5\xfa \xe5\xe9\xe9\xf9\xe5\xee\xe9\xe4"),
];

/// The hint about a file, with what stands behind the words that begin every one.
fn hint(file: &[u8]) -> String {
    let run = bib(&["check"], file);
    let line = run
        .text()
        .lines()
        .find_map(|line| line.strip_prefix("  hint: "));
    line.unwrap_or_default().to_string()
}

/// What `iconv` makes of a file; nothing where there is no `iconv`.
fn converted(file: &[u8], name: &str) -> Option<Vec<u8>> {
    let iconv = Command::new("iconv")
        .args(["-f", name, "-t", "UTF-8"])
        .stdin(Stdio::piped())
        .stdout(Stdio::piped())
        .spawn();
    let mut child = iconv.ok()?;
    child.stdin.take()?.write_all(file).ok()?;
    Some(child.wait_with_output().ok()?.stdout)
}

/// One of the commands in the hint makes the text what it was.
#[test]
fn what_comes_of_the_hint() {
    for (codec, text, bytes) in TEXTS {
        let around = |text: &[u8]| [b"@book{k,\n  title = {", text, b"},\n}\n"].concat();
        let file = around(bytes);
        let hint = hint(&file);
        let names = hint.split("`iconv -f ").skip(1);
        let names: Vec<&str> = names.filter_map(|rest| rest.split(' ').next()).collect();
        assert!(matches!(names.len(), 1 | 2), "{codec} {text}: {hint}");
        let all: Option<Vec<Vec<u8>>> = names.iter().map(|name| converted(&file, name)).collect();
        if let Some(all) = all {
            assert!(
                all.contains(&around(text.as_bytes())),
                "{codec} {text}: {hint}"
            );
        }
    }
}

/// The line is shown as it would read. Encodings of ten thousand characters are asked of the C library.
#[test]
fn lines_as_they_would_read() {
    let latin = b"@a{k,\n  t = {Kurt G\xf6del},\n}";
    let read = "perhaps it is Windows-1252 (Latin-1), in which it reads `t = {Kurt G\u{f6}del},`: \
                try `iconv -f WINDOWS-1252 -t UTF-8`";
    assert_eq!(hint(latin), read);
    // Two fit, and make different words of the second line.
    let two = b"@a{k, t = {Kurt G\xf6del}}\n@a{l, t = {Paul Erd\xf5s}}";
    let read = "perhaps it is Windows-1252 (Latin-1), in which line 2 reads `@a{l, t = {Paul Erd\u{f5}s}}`, \
                or Windows-1250, in which line 2 reads `@a{l, t = {Paul Erd\u{151}s}}`: \
                try `iconv -f WINDOWS-1252 -t UTF-8` or `iconv -f WINDOWS-1250 -t UTF-8`";
    assert_eq!(hint(two), read);
    let chinese = b"@a{k, t = {\xd6\xd0\xb9\xfa\xd1\xd0\xbe\xbf}}";
    let read = "perhaps it is GB18030 (Chinese), in which it reads `@a{k, t = {\u{4e2d}\u{56fd}\u{7814}\u{7a76}}}`: \
                try `iconv -f GB18030 -t UTF-8`";
    if knows("GB18030") {
        assert_eq!(hint(chinese), read);
    }
    let long = [
        b"@a{k, t = {",
        &[b'x'; 100][..],
        b" G\xf6del ",
        &[b'y'; 100][..],
        b"}}",
    ]
    .concat();
    assert!(
        hint(&long).contains("reads `\u{2026}xxx"),
        "{}",
        hint(&long)
    );
}

/// What MS-DOS wrote is not taken for what a Mac wrote: `M\x81ller` would be `MÅller` there.
#[test]
fn letters_of_ms_dos() {
    assert_eq!(
        hint(b"@a{k,\n  t = {J\x81rgen M\x81ller},\n}"),
        "perhaps it is CP850 (MS-DOS), in which it reads `t = {J\u{fc}rgen M\u{fc}ller},`: \
         try `iconv -f CP850 -t UTF-8`"
    );
}

/// Four bytes for each character are not taken for two.
#[test]
fn four_bytes() {
    let text = "@a{k, t = {G\u{f6}del}}";
    let little = |c: char| u32::from(c).to_le_bytes();
    let file: Vec<u8> = text.chars().flat_map(little).collect();
    let marked = [b"\xff\xfe\0\0", &file[..]].concat();
    let big: Vec<u8> = text
        .chars()
        .flat_map(|c| u32::from(c).to_be_bytes())
        .collect();
    for (file, name) in [(file, "UTF-32LE"), (marked, "UTF-32"), (big, "UTF-32BE")] {
        let want = format!("perhaps it is {name}: try `iconv -f {name} -t UTF-8`");
        assert_eq!(hint(&file), want);
    }
}

/// Where other entries are UTF-8, the file must not be converted as a whole.
#[test]
fn mixed_files() {
    let file = "@a{k, t = {G\u{f6}del}}\n@a{l, t = {\u{f6}, ".as_bytes();
    let file = [file, b"G\xf6del}}\n"].concat();
    assert_eq!(
        hint(&file),
        "other text of the file is UTF-8, so convert this part alone: perhaps it is Windows-1252 (Latin-1), \
         in which it reads `@a{l, t = {\u{f6}, G\u{f6}del}}`"
    );
    let cut = [
        "@a{k, t = {G\u{f6}del, M\u{fc}nchen, ".as_bytes(),
        b"\xc3}}",
    ]
    .concat();
    assert_eq!(
        hint(&cut),
        "other text of the file is UTF-8: write what is damaged here anew"
    );
}

/// What no encoding makes sense of is said to be so.
#[test]
fn unknown_encodings() {
    assert_eq!(
        hint(b"@a{k, t = {a\xb7\xb7b\x81\x8d}}"),
        "what encoding it is cannot be guessed; once it is known, `iconv -f NAME -t UTF-8` converts the file"
    );
}

/// Where a part of the file is UTF-16 and the rest is not, each damaged entry is named once.
#[test]
fn parts_in_utf16() {
    let half: Vec<u8> = "@a{k, t = 1}\n"
        .bytes()
        .flat_map(|byte| [byte, 0])
        .collect();
    let file = [b"\xff\xfe", &half[..], b"\n@a{l, t}\n@a{m, t = 2}\n"].concat();
    let run = bib(&["check"], &file);
    let last = run.text().lines().last();
    assert_eq!(last, Some("1 entry sound, 2 damaged, 3 errors, 0 warnings"));
    let run = bib(&["write"], &file);
    let last = run.err.lines().last();
    let line = "<stdin>: 1 entry written, 0 changed, 2 left out: k (line 1), l (line 3)";
    assert_eq!(last, Some(line));
}
