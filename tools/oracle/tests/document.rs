//! The listing's example and the edge values (docs/RULES.md, "The listing" and "Edge values").

use job::{encode, parse};
use oracle::{Bound, program};

/// What the program prints for a job's text.
fn printed(text: &str) -> String {
    let job = parse(text.as_bytes()).expect("the text describes a job");
    let out = program(&encode(&job), Bound::WIDE).expect("an answer");
    String::from_utf8(out).expect("ASCII")
}

/// The document alone.
fn document(text: &str) -> String {
    let all = printed(text);
    all.trim_end_matches('\n').rsplit('\n').next().expect("a line").to_string()
}

/// The lines that start with a word.
fn lines(text: &str, word: &str) -> Vec<String> {
    let all = printed(text);
    all.lines().filter(|line| line.split(' ').next() == Some(word)).map(str::to_string).collect()
}

#[test]
fn the_listing_is_document_01s() {
    assert_eq!(printed(include_str!("../../samples/listing.txt")), include_str!("../../samples/listing.out"));
}

/// One cell in an element with a max.
fn one_cell(kind: &str, cell: &str, max: u32) -> String {
    format!(
        "segment DTM 1=AN/-{max}\nloop 0 DTM rows 0\n  row! 0 DTM 1=c0\ntable 0\n  : {kind}\n  | {cell}\n"
    )
}

#[test]
fn edge_values() {
    let texts = [
        ("date", "@0", 8, "19700101"),
        ("date", "@-719162", 8, "00010101"),
        ("date", "@2932896", 8, "99991231"),
        ("date", "@-7305", 6, "500101"),
        ("date", "@29219", 6, "491231"),
        ("time", "@0", 8, "0000"),
        ("time", "@3661", 8, "010101"),
        ("time", "@86399", 8, "235959"),
        ("dec.2", "-1.50", 8, "-1.5"),
        ("dec.2", "0.05", 8, "0.05"),
        ("dec.2", "12.00", 8, "12"),
        ("dec.2", "0.00", 8, "0"),
    ];
    for (kind, cell, max, text) in texts {
        assert_eq!(document(&one_cell(kind, cell, max)), format!("DTM*{text}~"), "{kind} {cell}");
    }
    let reasons = [
        ("date", "@-719163", 8, 1),
        ("date", "@2932897", 8, 1),
        ("date", "@2147483647", 6, 1),
        ("date", "@-7306", 6, 2),
        ("date", "@29220", 6, 2),
        ("time", "@86400", 8, 3),
        ("time", "@-1", 8, 3),
        ("time", "@3661", 4, 4),
    ];
    for (kind, cell, max, reason) in reasons {
        let text = one_cell(kind, cell, max);
        assert_eq!(document(&text), "DTM~", "{kind} {cell}");
        assert_eq!(lines(&text, "NW"), [format!("NW C 0 0 0 DTM 1 - {reason}")], "{kind} {cell}");
    }
}

#[test]
fn components() {
    let svc = |cells: &str| {
        format!(
            "loop 0 SVC rows 0\n  row! 0 SVC 1-1=c0 1-2=c1 1-3=c2\ntable 0\n  : text text text\n  | {cells}\n"
        )
    };
    assert_eq!(document(&svc("HC - X")), "SVC*HC::X~");
    assert_eq!(document(&svc("HC \"\" X")), "SVC*HC::X~");
    assert_eq!(document(&svc("- - -")), "SVC~");
}

/// Rows entered as 2, 0, 1: the last comes after 0, but the highest yet is 2.
#[test]
fn out_of_order_compares_with_the_highest() {
    let text = "loop 0 CLP rows 0\nloop 1 SVC in 0 rows 1\ntable 0\n  : key\n  | 0\n  | 1\n  | 2\n\
                table 1 parent 0\n  : ref0\n  | 1\n  | 2\n  | 0\n";
    assert_eq!(lines(text, "R"), ["R 0 0 0", "R 1 1 2", "R 0 0 1", "R 1 1 0", "R 0 0 2", "R 1 1 1"]);
    assert_eq!(lines(text, "OO"), ["OO 1 0 0 1 2", "OO 1 1 0 2 2"]);
}

/// A run inside a run: its bounds count from the start of the parent's list.
#[test]
fn runs_count_from_the_start_of_the_list() {
    let text = "loop 0 LX groups 0\n  row! 0 LX 1=c0\nloop 1 N1 in 0 groups 0\n  row! 0 N1 1=c1\n\
                loop 2 CLP in 1 rows 0\n  row! 0 CLP 1=c2\ntable 0\n  : text text text\n\
                \n  | A 1 a\n  | A 2 b\n  | B 2 c\n  | B 3 d\n";
    assert_eq!(document(text), "LX*A~N1*1~CLP*a~N1*2~CLP*b~LX*B~N1*2~CLP*c~N1*3~CLP*d~");
}

/// An unforced segment is skipped exactly when every column cell it plans is null.
#[test]
fn empty_binary_is_not_null() {
    let text = |cell: &str| {
        format!("loop 0 CLP rows 0\n  row 0 CLP 1=c0\n  row 0 REF 1=\"X\"\ntable 0\n  : text\n  | {cell}\n")
    };
    assert_eq!(document(&text("\"\"")), "CLP~");
    assert_eq!(lines(&text("-"), "S"), Vec::<String>::new());
}

#[test]
fn refusals_are_printed() {
    assert_eq!(program(b"", Bound::WIDE), Ok(b"refused 1\n".to_vec()));
    let many = "loop 0 CLP rows 0\nloop 1 SVC in 0 rows 1\ntable 0\n  rows 255\ntable 1\n  rows 257\n";
    assert_eq!(printed(many), "refused 6\n");
    let long = "loop 0 CLP rows 0\ntable 0\n  rows 513\n";
    assert_eq!(printed(long), "refused 7\n");
    let full = "loop 0 CLP rows 0\ntable 0\n  rows 512\n";
    assert!(printed(full).starts_with("done 0 0 0 512\n"));
}

/// 255 rows with 256 each below them are 255 * 257 = 65,535 instances; one more root makes it full.
#[test]
fn instances_are_counted() {
    let text = |roots: usize| {
        let mut text = String::from("loop 0 CLP rows 0\nloop 1 SVC in 0 rows 1\n");
        for root in 2..2 + roots {
            text.push_str(&format!("loop {root} N1 envelope\n"));
        }
        text + "table 0\n  rows 255\ntable 1\n  rows 256\n"
    };
    let run = |roots| oracle::run(&parse(text(roots).as_bytes()).expect("a job"), Bound::WIDE);
    let instances = |roots| match run(roots) {
        oracle::Run::Done(outcome) => outcome.instances,
        other => panic!("{other:?}"),
    };
    assert_eq!(instances(0), 65_535);
    assert_eq!(instances(1), 65_536);
    assert_eq!(run(2), oracle::Run::TooMany);
}

/// A counter at its highest number goes on at 0: a named exception, since the Rust's stays there.
#[test]
fn a_counter_goes_on_at_zero() {
    let text = "envelope control 18446744073709551615\nsegment ST 2=N0\n\
                loop 0 ST rows 0 end SE control 2 2 1 segments\n  envelope\ntable 0\n  rows 2\n";
    assert_eq!(document(text), "ST**18446744073709551615~SE*2*18446744073709551615~ST**0~SE*2*0~");
}

/// Places that their text doesn't tell apart, tables out of range, absent columns.
#[test]
fn numbers_behind_names() {
    let text = "segment N1 103=DT\nsegment N11 3=DT\nloop 0 N1 rows 0\n  row! 0 N1 103=c1\n  row! 0 N11 3=c1\n\
                table 0 parent 77 ancestors columns 0\n  : none date\n  | @-2147483648\n\
                table 1 ancestors\n  : none date\n  | @-800000\n";
    assert_eq!(lines(text, "MP"), ["MP 0 0 77 -"]);
    let written = text.replace("parent 77 ", "");
    let expected = ["NW C 0 0 1 N1 103 - 1", "NW C 0 0 1 N11 3 - 1"];
    assert_eq!(lines(&written, "NW"), expected);
}
