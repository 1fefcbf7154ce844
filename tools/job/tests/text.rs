//! The text form: text, job, bytes, job and text again.

use job::{check, decode, encode, parse, print};

/// Goes round once; the text has to be as `print` writes it.
fn round(text: &str) {
    let job = parse(text.as_bytes()).expect("the text describes a job");
    let bytes = encode(&job);
    let again = decode(&bytes).expect("the bytes hold a job");
    assert_eq!(again, job);
    assert_eq!(print(&again), text);
}

#[test]
fn samples_go_round() {
    for text in [include_str!("../../samples/listing.txt"), include_str!("../../samples/three_claims.txt")] {
        round(text);
        let job = parse(text.as_bytes()).expect("a sample");
        assert_eq!(check(&encode(&job)), Ok(job));
    }
}

/// The samples for readers have comments and lines of their own making, so only the job goes round.
#[test]
fn samples_for_readers_are_jobs() {
    let samples = [
        include_str!("../../samples/remittance.txt"),
        include_str!("../../samples/findings.txt"),
        include_str!("../../samples/lost.txt"),
    ];
    for text in samples {
        let job = parse(text.as_bytes()).expect("a sample");
        assert_eq!(parse(print(&job).as_bytes()), Ok(job.clone()));
        assert_eq!(check(&encode(&job)), Ok(job));
    }
}

#[test]
fn nothing_goes_round() {
    round("");
}

#[test]
fn odd_texts_go_round() {
    round(concat!(
        "envelope sender \"\" \"a b\" receiver ZZ \"\\\"\\\\\\n\\xff\" application - \"\" date @2932897 time @86400 usage T control\n",
        "  + 18446744073709551615 separators \"|>\\n\\x00\" breaks\n",
        "version GS 8 \"# no comment\"\n",
        "segment \"\"\n",
        "segment N1 0=N255/1- 1=R0/-4294967295(\"\",a,\"a,b\"){0=AN/0-0(x) 1=TM} 2=DT 300=ID(\"\\xc3\\xa9\")\n",
    ));
}

#[test]
fn odd_loops_go_round() {
    round(concat!(
        "loop 0 A1 absent required end ZZ control 0 1 1 children\n",
        "  occurrences A1 B2 B2\n",
        "  row! 7 B2 1=c4294967295 0-0=g1 1-2=\"\"\n",
        "  envelope @2 1=\"c0\"\n",
        "  repeat 0 @9\n",
        "  envelope\n",
        "  children 5 5\n",
        "  order 0 0 >1 9 >9\n",
        "  group-columns 0 0 7\n",
        "  depth -\n",
        "loop 1 \"bad id\" in 0 groups 3\n",
        "  row 3 AB 1=c0 2=c2\n",
        "  forced 1 0\n",
        "  depth 3\n",
        "loop 2 C3 in 99 inside 1\n",
        "past loop 3 implied\n",
        "  occurrences\n",
        "  row 0 @0\n",
        "  order\n",
        "past loop 4 absent\n",
        "  depth 0\n",
        "roots 0 0\n",
        "table 0 loops 9 ancestors 1 1 columns 40 capacity 0\n",
        "  rows 4096\n",
        "past table 1 capacity 300\n",
        "  : ref7:none none text\n",
        "  | -\n",
        "  | \"-\"\n",
        "  | \"\"\n",
        "lists plan=4 order=4 forced=4 groups=2 depth=5 capacity=2 data=2\n",
    ));
}

#[test]
fn odd_columns_go_round() {
    round(concat!(
        "table 0 parent 0 ancestors\n",
        "  : key:text segment:raw ref0:int.2 ref0:date text raw raw int.39 dec.38 dec.0 date time none raw\n",
        "  raw int values 1 -2 validity 07 2\n",
        "  raw text offsets 0 5 3 -1 data \"abc\" validity - 9\n",
        "  raw dec.2 values -170141183460469231731687303715884105728 validity ff00 3\n",
        "  raw time values 1 2 3 validity 03 2\n",
        "  | A -9223372036854775808 0001-01-01 \"# * :\" 9223372036854775807 ",
        "-0.00000000000000000000000000000000000001\n",
        "    + 170141183460469231731687303715884105727 9999-12-31 23:59:59\n",
        "  | - - @-719163 - - - - @2932897 @-1\n",
    ));
}

#[test]
fn mistakes_are_told() {
    for (text, line) in [
        ("loop 1 CLP", "line 1"),
        ("loop 0 CLP\n  row 0 CLP 1=x", "line 2"),
        ("# fine\ntable 0\n  : text\n  | \"open", "line 4"),
        ("table 0\n  : what", "line 2"),
        ("envelope date 2023-02-29", "line 1"),
        ("lists what=1", "line 1"),
        ("nothing known", "line 1"),
    ] {
        let error = parse(text.as_bytes()).expect_err("a mistake");
        assert!(error.starts_with(line), "{error}");
    }
}
