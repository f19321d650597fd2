//! The command `lhz`: texts of lists, from the text to the volume and back, and every mistake in
//! one with its line and column.

use crate::support::command::*;
use crate::support::*;

/// The words of the largest volume.
const WORDS: usize = 1_032_192;

/// Texts and their lists, as `lhz read` prints them.
#[test]
fn texts_of_lists() {
    let folder = Folder::new();
    for (text, lists) in [
        ("1:0 1:6\n1:2\n", "1:0 1:6\n1:2\n"),
        // The last line may lack its end.
        ("1:0 1:6\n1:2", "1:0 1:6\n1:2\n"),
        ("1:0", "1:0\n"),
        // Empty lists.
        ("-", "-\n"),
        ("-\n-\n", "-\n-\n"),
        ("1:0\n-\n-\n", "1:0\n-\n-\n"),
        ("-\n1:0", "-\n1:0\n"),
        (" \t- \n1:0\n- # c\n-\t#\r\n", "-\n1:0\n-\n-\n"),
        // Blanks.
        ("  1:0\t \t1:6  \n\t1:2\t\n", "1:0 1:6\n1:2\n"),
        // Comments: a line of them is no list.
        ("# titles\n1:0 1:6\n", "1:0 1:6\n"),
        ("1:2 # 1:8\n1:2 # 1:8 2:4\n1:2 1:4 # 1:8 2:4", "1:2\n1:2\n1:2 1:4\n"),
        ("- # 1:8 2:4\n-\t#\t1:8", "-\n-\n"),
        ("#\n1:0\n   # c\n\t#c 1:2\n1:2 # c # d\n#", "1:0\n1:2\n"),
        ("1:0 #\n1:2 #1:6\n1:5\t#\u{fc}ber \u{2116}\n", "1:0\n1:2\n1:5\n"),
        ("# \u{fc}ber\n1:0 # \u{201e}Stille\u{201c}\n", "1:0\n"),
        // Line ends of two signs, and the mark that some editors put in front.
        ("1:0 1:6\r\n-\r\n# c\r\n1:2 # c\r\n", "1:0 1:6\n-\n1:2\n"),
        ("1:0\r\n1:2", "1:0\n1:2\n"),
        ("\u{feff}1:0\n1:2\n", "1:0\n1:2\n"),
        ("\u{feff}# c\n1:2\n", "1:2\n"),
        ("\u{feff}-\n", "-\n"),
        // Numbers.
        ("0:0 65535:65535", "0:0 65535:65535\n"),
        ("00001:0002 1:03 0002:00000", "1:2 1:3 2:0\n"),
        ("0000000000000000000000000000000000000000065535:1", "65535:1\n"),
        ("1:65535 2:0", "1:65535 2:0\n"),
    ] {
        folder.write("some.txt", text);
        let told = format!(
            "lists {} postings {} blocks 1\n",
            lists.lines().count(),
            lists.matches(':').count()
        );
        assert_eq!(folder.lhz("write some.txt some.vol").told(), (0, &*told, ""), "{text:?}");
        assert_eq!(folder.lhz("read some.vol").told(), (0, lists, ""), "{text:?}");
    }
}

/// The text has a mistake here, and says so: the refusal, if document 01 has one for it. Nothing is
/// written.
#[track_caller]
fn mistaken(folder: &Folder, text: &[u8], refused: &str, told: &str) {
    folder.write("some.txt", text);
    let before = folder.names();
    let sentence = folder.lhz("write some.txt new.vol").failure(1, refused).to_string();
    let text = String::from_utf8_lossy(&text[..text.len().min(60)]);
    assert_eq!(sentence, format!("some.txt:{told}"), "{text:?}");
    assert_eq!(folder.names(), before, "{text:?}");
}

#[test]
fn words_that_are_no_posting() {
    let folder = Folder::new();
    for word in [
        "x",
        "1",
        "1:",
        ":1",
        ":",
        "::",
        "1:2:3",
        "1::2",
        "-1:2",
        "1:-2",
        "+1:2",
        "1:+2",
        "0x1:2",
        "1.0:2",
        "1,000:2",
        "1:2,",
        "1;2",
        "1/2",
        "1:2#c",
        "--",
        "-#",
        "\u{2212}",
        "1:#",
        "\u{661}:2",
        "1\u{ff1a}2",
        "\u{fc}:1",
        "1:2\u{301}",
    ] {
        let told = format!("`{word}` is no scene:place");
        mistaken(&folder, word.as_bytes(), "", &format!("1:1: {told}"));
        let text = format!("# c\n1:0 1:6\n-\n \t {word} 1:0 # c\n1:x\n");
        mistaken(&folder, text.as_bytes(), "", &format!("4:4: {told}"));
        let text = format!("1:0\r\n1:0 {word}\r\n");
        mistaken(&folder, text.as_bytes(), "", &format!("2:5: {told}"));
        let text = format!("\u{feff}1:0 {word}");
        mistaken(&folder, text.as_bytes(), "", &format!("1:5: {told}"));
    }
    for (text, told) in [
        ("1 :2", "1:1: `1` is no scene:place"),
        ("1: 2", "1:1: `1:` is no scene:place"),
        ("1:0 1 :2", "1:5: `1` is no scene:place"),
        ("1:2 #c\n\t\tx", "2:3: `x` is no scene:place"),
        // An empty list stands alone in its line.
        ("- 1:0", "1:1: `-` is no scene:place"),
        ("1:0 -", "1:5: `-` is no scene:place"),
        ("- -", "1:1: `-` is no scene:place"),
        // A mistake comes before what is refused, wherever it stands.
        ("1:6 1:0\n1:0\nx", "3:1: `x` is no scene:place"),
    ] {
        mistaken(&folder, text.as_bytes(), "", told);
    }
}

/// An empty line is a mistake, wherever it stands and however it ends.
#[test]
fn empty_lines() {
    let folder = Folder::new();
    for (text, line) in [
        ("\n", 1),
        ("\r\n", 1),
        ("\u{feff}\n1:0\n", 1),
        ("1:0\n\n1:2\n", 2),
        ("1:0\n \t\n1:2\n", 2),
        ("1:0\n1:2\n\n", 3),
        ("1:0\r\n1:2\r\n\r\n", 3),
        ("1:0\n1:2\n ", 3),
        ("# c\n\n# c\n1:0", 2),
        ("-\n\n-\n", 2),
        // The first mistake is told, and any before what is refused.
        ("1:0\n\nx\n", 2),
        ("1:6 1:0\n\n", 2),
    ] {
        let told = format!("{line}:1: the line is empty; an empty list is told by `-`");
        mistaken(&folder, text.as_bytes(), "", &told);
    }
    mistaken(&folder, b"x\n\n", "", "1:1: `x` is no scene:place");
    let text = "-\n".repeat(1_025) + "\n";
    let told = "1026:1: the line is empty; an empty list is told by `-`";
    mistaken(&folder, text.as_bytes(), "", told);
}

#[test]
fn numbers_over_65535() {
    let folder = Folder::new();
    for number in [
        "65536",
        "65537",
        "99999",
        "131072",
        "4294967296",
        "18446744073709551616",
        "123456789012345678901234567890",
        "0065536",
    ] {
        let told = format!("`{number}` is over 65535");
        mistaken(&folder, format!("{number}:0").as_bytes(), "", &format!("1:1: {told}"));
        mistaken(&folder, format!("0:{number}").as_bytes(), "", &format!("1:1: {told}"));
        let text = format!("0:0\n-\n0:65535\t65535:{number}\n");
        mistaken(&folder, text.as_bytes(), "", &format!("3:9: {told}"));
    }
}

/// Signs that look like a blank or a line end, or like nothing, are told by their numbers: they
/// part neither words nor lines.
#[test]
fn signs_that_cannot_be_seen() {
    let folder = Folder::new();
    for (sign, told) in [
        ('\u{a0}', "\\u{a0}"),
        ('\u{b}', "\\u{b}"),
        ('\u{c}', "\\u{c}"),
        ('\u{85}', "\\u{85}"),
        ('\u{2028}', "\\u{2028}"),
        ('\u{3000}', "\\u{3000}"),
        ('\u{200b}', "\\u{200b}"),
        ('\u{202e}', "\\u{202e}"),
        ('\u{feff}', "\\u{feff}"),
        ('\0', "\\u{0}"),
        ('\u{1b}', "\\u{1b}"),
    ] {
        let told = format!("1:5: `1:2{told}1:8` is no scene:place");
        mistaken(&folder, format!("1:0 1:2{sign}1:8\n").as_bytes(), "", &told);
    }
    let told = "a carriage return without a line feed behind it ends no line";
    for (text, at) in [
        ("1:0\r1:2\r", "1:4"),
        ("1:0\n1:2\r", "2:4"),
        ("1:0 # titles\r1:2\r", "1:13"),
        ("1:0 # \u{fc}\r1:2\n", "1:8"),
        ("1:0\r\r\n", "1:4"),
        ("# c\r\n\r1:0\r\n", "2:1"),
    ] {
        mistaken(&folder, text.as_bytes(), "", &format!("{at}: {told}"));
    }
}

/// Columns are counted in characters, up to the first byte that is not in UTF-8.
#[test]
fn bytes_that_are_no_text() {
    let folder = Folder::new();
    for (text, at) in [
        (b"\xff" as &[u8], "1:1"),
        (b"1:0 \xff", "1:5"),
        (b"1:0\n1:2\n\xc3", "3:1"),
        ("1:0 # \u{fc}\u{2116}".as_bytes(), "1:9"),
        ("x\n1:0 # \u{fc}\u{2116}".as_bytes(), "2:9"),
        (b"\xef\xbb\xbf1:0 ", "1:5"),
        // Two bytes a sign, with the mark that says so.
        (b"\xff\xfe1\0:\x000\0", "1:1"),
    ] {
        let text = [text, b"\xff"].concat();
        mistaken(&folder, &text, "", &format!("{at}: the text is not in UTF-8"));
    }
    mistaken(
        &folder,
        "1:0 # \u{fc}".as_bytes().split_last().unwrap().1,
        "",
        "1:7: the text is not in UTF-8",
    );
}

/// A long word is told by its front.
#[test]
fn long_words() {
    let folder = Folder::new();
    let told = |sign: &str| format!("1:5: `{}...` is no scene:place", sign.repeat(40));
    for sign in ["x", "\u{fc}", "7"] {
        let text = format!("1:0 {}", sign.repeat(41));
        mistaken(&folder, text.as_bytes(), "", &told(sign));
        let text = format!("1:0 {} 1:6", sign.repeat(1 << 20));
        mistaken(&folder, text.as_bytes(), "", &told(sign));
    }
    let text = format!("1:0 {}", "x".repeat(40));
    mistaken(&folder, text.as_bytes(), "", &format!("1:5: `{}` is no scene:place", "x".repeat(40)));
}

/// 7: the first posting that does not come after the one before it, in the lowest such list.
#[test]
fn lists_that_do_not_rise() {
    let folder = Folder::new();
    for (text, list, told) in [
        ("1:0 1:0", 0, "1:5: `1:0` does not come after `1:0`"),
        ("1:0 1:6\n1:8 1:2\n", 1, "2:5: `1:2` does not come after `1:8`"),
        ("2:0 1:65535", 0, "1:5: `1:65535` does not come after `2:0`"),
        ("1:6 1:7 1:8 1:8 1:7", 0, "1:13: `1:8` does not come after `1:8`"),
        ("# c\n-\n1:5 1:7\t 1:6 # c", 1, "3:10: `1:6` does not come after `1:7`"),
        ("1:0\n# c\n-\r\n1:6 1:5\n1:4 1:3", 2, "4:5: `1:5` does not come after `1:6`"),
        ("01:02 1:2", 0, "1:7: `1:2` does not come after `01:02`"),
        ("\u{feff}1:1 1:0", 0, "1:5: `1:0` does not come after `1:1`"),
        ("65535:65535 0:0", 0, "1:13: `0:0` does not come after `65535:65535`"),
    ] {
        mistaken(&folder, text.as_bytes(), &format!("refused 7 {list}\n"), told);
    }
    // Each list may start below the end of the one before it.
    assert_eq!(
        folder.lhz_given("write - a.vol", b"9:9\n0:0\n9:9").answer(),
        "lists 3 postings 3 blocks 1\n"
    );
}

/// 5: no list, or more than 1,024.
#[test]
fn numbers_of_lists() {
    let folder = Folder::new();
    for (text, at) in
        [("", "1:1"), ("\u{feff}", "1:1"), ("# c\n", "2:1"), ("#\r\n  # c\r\n", "3:1")]
    {
        mistaken(&folder, text.as_bytes(), "refused 5 0\n", &format!("{at}: there is no list"));
    }
    let lists = |count: usize| "1:0 # c\n# c\n".repeat(count);
    let empty = |count: usize| b"-\n".repeat(count);
    let written = folder.lhz_given("write - a.vol", lists(1_024).as_bytes());
    assert_eq!(written.answer(), "lists 1024 postings 1024 blocks 17\n");
    let written = folder.lhz_given("write - a.vol", &empty(1_024));
    assert_eq!(written.answer(), "lists 1024 postings 0 blocks 9\n");
    let told = "this list is one more than the 1024 of a volume";
    mistaken(&folder, lists(1_025).as_bytes(), "refused 5 0\n", &format!("2049:1: {told}"));
    mistaken(&folder, &empty(1_025), "refused 5 0\n", &format!("1025:1: {told}"));
    mistaken(&folder, &empty(5_000), "refused 5 0\n", &format!("1025:1: {told}"));
    // 5 comes before 7.
    let text = format!("1:1 1:0\n{}", lists(1_024));
    mistaken(&folder, text.as_bytes(), "refused 5 0\n", &format!("2048:1: {told}"));
}

/// Random lists: the text gives the plain writer's volume, and that volume the text.
#[test]
fn random_texts_come_back() {
    let seed = 5_150;
    let mut rng = Rng::new(seed);
    let folder = Folder::new();
    for round in 0..100 {
        let most = rng.pick(&[1, 3, 10, 60]);
        let lists = random_lists(&mut rng, most);
        let (text, volume) = (lists.text(), lists.volume());
        let written = folder.lhz_given("write - some.vol", text.as_bytes());
        let told = format!(
            "lists {} postings {} blocks {}\n",
            lists.counts.len(),
            lists.postings.len(),
            volume.len() / 512
        );
        assert_eq!(written.answer(), told, "seed {seed}, round {round}");
        assert!(folder.read("some.vol") == volume, "seed {seed}, round {round}: the volume");
        assert!(
            folder.lhz("read some.vol").answer() == text,
            "seed {seed}, round {round}: the text"
        );
    }
}

/// The largest volumes, 4 MiB: of 1,024 lists and 1,031,166 postings, and of an empty list and a
/// long one; and a posting more.
#[test]
fn the_largest_text() {
    let folder = Folder::new();
    let long = filling(1, WORDS - 1);
    let long = Lists { counts: vec![0, long.counts[0]], postings: long.postings };
    for lists in [filling(1_024, WORDS), long] {
        assert_eq!(lists.words(), WORDS);
        let (count, postings) = (lists.counts.len(), lists.postings.len());
        let (text, volume) = (lists.text(), lists.volume());
        folder.write("most.txt", &text);
        let written = folder.lhz("write most.txt most.vol");
        assert_eq!(written.answer(), format!("lists {count} postings {postings} blocks 8192\n"));
        assert!(folder.read("most.vol") == volume);
        let checked = folder.lhz("check most.vol");
        assert_eq!(checked.answer(), format!("lists {count} postings {postings}\n"));
        assert!(folder.lhz("read most.vol").answer() == text);

        // The last posting is the one too many, wherever another was added.
        let too_many = |text: &str, column: usize| {
            let told = format!("{count}:{column}: this posting is one more than fits the volume");
            mistaken(&folder, text.as_bytes(), "refused 19 0\n", &told);
        };
        let last_line = text.lines().last().unwrap();
        let last_word = last_line.split(' ').next_back().unwrap();
        let behind = format!("{} 65535:65535 # c\n", text.trim_end());
        too_many(&behind, last_line.len() + 2);
        if lists.counts[0] > 0 {
            let front = text.replacen('\n', " 65535:65535\n", 1);
            too_many(&front, 1 + last_line.len() - last_word.len());
        }
        // 7 comes before 19.
        let falls = format!("{} 0:0\n", text.trim_end());
        let refused = format!("refused 7 {}\n", count - 1);
        let ended = folder.lhz_given("write - -", falls.as_bytes());
        assert!(ended.failure(1, &refused).contains("`0:0` does not come after"));
    }
}
