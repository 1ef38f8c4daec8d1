//! Sheets from text: their bytes, and each error with its line and column.

use std::io::Write;
use std::process::{Command, Stdio};
use trial::known::kiln;
use trial::text::{good, sheet};
use trial::write::*;

/// "a <- not K b; b <- not K a", as `README.md` shows it.
const MUTUAL: [u8; 39] = [
    2, 1, 0x61, 1, 0x62, 2, // two atoms, two rules
    1, 0, 0, 0, 0, 0, 0, 0, 0, 0, 2, 0, 0, 0, 0, 0, // a <- not K b
    2, 0, 0, 0, 0, 0, 0, 0, 0, 0, 1, 0, 0, 0, 0, 0, // b <- not K a
    0, // no pairs
];

#[test]
fn texts_of_one_sheet() {
    let texts = [
        "a b: a <- not K b; b <- not K a",
        "a b:\na <- not K b\nb <- not K a\n",
        "a\nb :a<-not K b;;b<-not  K\ta;",
        "# two atoms\na # the first: a\nb: # rules\r\n\n a <- not K b # ; b\n ; b <- not K a#",
    ];
    for text in texts {
        assert_eq!(good(text), MUTUAL, "{text}");
    }
}

#[test]
fn every_kind_of_literal() {
    let text = "a b c: a | c | a <- b, not a, not not b, K c, not K a, M b, not M c, not M b; <-; b; <- c";
    let rules = [[5, 2, 1, 2, 4, 1, 2, 6], [0; 8], rule(&[(HEAD, 2)]), rule(&[(PLAIN, 4)])];
    assert_eq!(good(text), lettered(3, &rules));
    assert_eq!(good(":"), [0, 0, 0]);
    let kiln_bytes = [b"\x02\x05glaze\x06bisque\x02\x03".as_slice(), &[0; 15 + 10], &[1, 0, 0, 0, 0, 0, 0]].concat();
    assert_eq!(kiln(), kiln_bytes);
}

#[test]
fn pairs() {
    let rules = [rule(&[(HEAD, 1), (PLAIN, 2)]), rule(&[(HEAD, 8)])];
    let expected = lettered_with(5, &rules, &[[4, 0], [1, 2]]);
    let texts = [
        "a b c d e: a <- b; d; e <> a; b <> c",
        "a b c d e:\n e<>a # opposites\n a <- b; b<> c;; d",
        "a b c d e: e <>a\nb\t<>\tc\na <- b\nd\n",
    ];
    for text in texts {
        assert_eq!(good(text), expected, "{text}");
    }
    assert_eq!(good("dry wet: dry <> wet"), b"\x02\x03dry\x03wet\x00\x01\x00\x01");
}

/// Seven pairs of fourteen atoms.
const SEVEN: &str = "a <> b; c <> d; e <> f; g <> h; i <> j; k <> l; m <> n";

#[test]
fn the_limits() {
    let names = "a b c d e f g h i j k l m n abcdefgh_i_9";
    let full = format!("{names}: {} {SEVEN}", "a;".repeat(64));
    assert_eq!(good(&full).len(), 1 + 28 + 13 + 1 + 64 * 16 + 1 + 14);
    assert_eq!(
        good("a b c d e f: <- K a, K b, K c, K d, K e, K f; <- M a, M b, M c, not M d, M e, M f, not K f")[13],
        2
    );
}

/// A text, and where and what is wrong.
const WRONG: [(&str, &str); 45] = [
    ("", "line 1, column 1: a colon is missing after the names"),
    ("a b\n", "line 2, column 1: a colon is missing after the names"),
    ("a b a <- b", "line 1, column 5: a second atom is named a"),
    ("a b <- b", "line 1, column 5: a colon is missing before <-"),
    ("a; b:", "line 1, column 2: a colon is missing before ;"),
    ("a b <> a", "line 1, column 5: a colon is missing before <>"),
    ("a\nB:", "line 2, column 1: a name has 1 to 12 bytes from a-z, 0-9 and _, the first from a-z"),
    ("a b-c:", "line 1, column 3: a name has 1 to 12 bytes from a-z, 0-9 and _, the first from a-z"),
    ("ä:", "line 1, column 1: a name has 1 to 12 bytes from a-z, 0-9 and _, the first from a-z"),
    ("abcdefghijklm:", "line 1, column 1: a name has 1 to 12 bytes from a-z, 0-9 and _, the first from a-z"),
    ("a K:", "line 1, column 3: a name has 1 to 12 bytes from a-z, 0-9 and _, the first from a-z"),
    ("a not:", "line 1, column 3: no atom can be named not: it is read as the negation"),
    ("a b c d e f g h i j k l m n o\n  p:", "line 2, column 3: there are over 15 atoms"),
    ("a b:\na <- c", "line 2, column 6: no atom is named c"),
    ("a b: c <- a", "line 1, column 6: no atom is named c"),
    ("a: ä | a; b", "line 1, column 4: no atom is named ä"),
    ("a: not a", "line 1, column 4: no atom is named not"),
    ("a: a | ", "line 1, column 8: an atom is missing"),
    ("a: | a", "line 1, column 4: an atom is missing"),
    ("a: a <-", "line 1, column 8: an atom is missing"),
    ("a: a <- ; a", "line 1, column 9: an atom is missing"),
    ("a: a <- a,, a", "line 1, column 11: an atom is missing"),
    ("a: a <- not # a", "line 1, column 13: an atom is missing"),
    ("a: <- K, a", "line 1, column 8: an atom is missing"),
    ("a b: a b <- a", "line 1, column 8: | or <- is missing before b"),
    ("a b: a, b", "line 1, column 7: | or <- is missing before ,"),
    ("a b: a <- a b", "line 1, column 13: a comma is missing before b"),
    ("a b: a <- a <- b", "line 1, column 13: a comma is missing before <-"),
    ("a: a <- a: a", "line 1, column 10: a comma is missing before :"),
    ("a: <- a, not not K a", "line 1, column 10: no literal begins with not not K"),
    ("a: <- K not a", "line 1, column 7: no literal begins with K not"),
    ("a b: a <- b <> a", "line 1, column 13: a comma is missing before <>"),
    ("a b: <> b", "line 1, column 6: an atom is missing"),
    ("a b:\n <>", "line 2, column 2: an atom is missing"),
    ("a b: a <>", "line 1, column 10: an atom is missing"),
    ("a b: a <> ; b", "line 1, column 11: an atom is missing"),
    ("a b: a <> not b", "line 1, column 11: no atom is named not"),
    ("a b: a <> c", "line 1, column 11: no atom is named c"),
    ("a b: c <> a", "line 1, column 6: no atom is named c"),
    ("a b c: a b <> c", "line 1, column 10: <> is missing before b"),
    ("a b c: a | b <> c", "line 1, column 10: <> is missing before |"),
    ("a b c: a <> b c", "line 1, column 15: a pair has two atoms, and c follows"),
    ("a b c: a <> b <> c", "line 1, column 15: a pair has two atoms, and <> follows"),
    ("a b c: a <> b <- c", "line 1, column 15: a pair has two atoms, and <- follows"),
    ("a b: a <> a", "line 1, column 11: a is twice in the pair"),
];

#[test]
fn errors_and_their_places() {
    for (text, message) in WRONG {
        assert_eq!(sheet(text).expect_err(text).to_string(), message, "{text}");
    }
    let many = format!("a:\n{}  a", "a;".repeat(64));
    assert_eq!(sheet(&many).expect_err("65 rules").to_string(), "line 2, column 131: there are over 64 rules");
    let thirteen =
        "a b c d e f g: <- K a, K b, K c, K d, K e, K f; <- M a, M b, M c, M d, M e, M f, not K f\n <- K a, not K g";
    let message = "line 2, column 10: there are over 12 epistemic negations";
    assert_eq!(sheet(thirteen).expect_err("13 negations").to_string(), message);
    let eight = format!("a b c d e f g h i j k l m n o:\n{SEVEN}\n  o <> a");
    assert_eq!(sheet(&eight).expect_err("8 pairs").to_string(), "line 3, column 3: there are over 7 pairs");
}

/// An atom of an earlier pair, first or second in each of the two.
#[test]
fn atoms_of_earlier_pairs() {
    for (pair, column, atom) in [("a <> c", 16, "a"), ("c <> a", 21, "a"), ("b <> c", 16, "b"), ("c <> b", 21, "b")] {
        let text = format!("a b c: a <> b; {pair}");
        let message = format!("line 1, column {column}: {atom} is in an earlier pair");
        assert_eq!(sheet(&text).expect_err(&text).to_string(), message, "{text}");
    }
}

/// The program `sheet` on a text: its status, what it writes and what it says.
fn run(arguments: &[&str], text: &str) -> (i32, Vec<u8>, String) {
    let mut command = Command::new(env!("CARGO_BIN_EXE_sheet"));
    command.args(arguments).stdin(Stdio::piped()).stdout(Stdio::piped()).stderr(Stdio::piped());
    let mut child = command.spawn().expect("sheet starts");
    // It may end without reading.
    let _ = child.stdin.take().expect("piped").write_all(text.as_bytes());
    let output = child.wait_with_output().expect("sheet ends");
    (output.status.code().expect("a status"), output.stdout, String::from_utf8(output.stderr).expect("text"))
}

#[test]
fn the_program() {
    assert_eq!(run(&[], "a b: a <- not K b; b <- not K a"), (0, MUTUAL.to_vec(), String::new()));
    let said = "standard input:2:3: no atom is named b\n".to_string();
    assert_eq!(run(&[], "a:\n  b"), (1, vec![], said));
    let (status, written, said) = run(&["no/such/file"], "");
    assert_eq!((status, written), (2, vec![]));
    assert!(said.starts_with("no/such/file: "), "{said}");
    assert_eq!(run(&["--other"], ":").0, 2);
    assert_eq!(run(&["one", "two"], ":").0, 2);
    assert_eq!(run(&["-"], ":"), (0, vec![0, 0, 0], String::new()));
    assert!(run(&["--help"], "").1.starts_with(b"use: sheet [FILE]\n"));
}
