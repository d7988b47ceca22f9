//! Inputs as partners send them, each with what is printed of it: tests/words has the input
//! and, beside it, what `judge --show` prints. One alone: `cargo test --test words input_12`.

use std::path::PathBuf;

use assert_cmd::Command;

fn folder() -> PathBuf {
    PathBuf::from(concat!(env!("CARGO_MANIFEST_DIR"), "/../../tests/words"))
}

/// What is printed of it, and the status that goes with it, are the stored ones.
fn printed(name: &str) {
    let stored = std::fs::read(folder().join(format!("{name}.txt"))).expect("a stored answer");
    let status = if stored.starts_with(b"accepted") { 0 } else { 1 };
    Command::cargo_bin("hverolda")
        .expect("the command")
        .args(["judge", "--show"])
        .arg(folder().join(format!("{name}.edi")))
        .assert()
        .code(status)
        .stdout(stored)
        .stderr("");
}

macro_rules! inputs {
    ($($test:ident $name:literal,)*) => {
        $(#[test]
        fn $test() {
            printed($name);
        })*

        const NAMES: &[&str] = &[$($name),*];
    };
}

inputs! {
    input_01_byte_order_mark "01-byte-order-mark",
    input_02_utf_16 "02-utf-16",
    input_03_ebcdic "03-ebcdic",
    input_04_gzip "04-gzip",
    input_05_x12 "05-x12",
    input_06_tradacoms "06-tradacoms",
    input_07_xml "07-xml",
    input_08_json "08-json",
    input_09_empty "09-empty",
    input_10_leading_line_break "10-leading-line-break",
    input_11_mail_header "11-mail-header",
    input_12_ctrl_z_at_the_end "12-ctrl-z-at-the-end",
    input_13_zero_bytes_at_the_end "13-zero-bytes-at-the-end",
    input_14_blanks_at_the_end "14-blanks-at-the-end",
    input_15_lines_of_80_bytes "15-lines-of-80-bytes",
    input_16_second_interchange "16-second-interchange",
    input_17_line_feed_as_terminator "17-line-feed-as-terminator",
    input_18_segment_count "18-segment-count",
    input_19_references_differ "19-references-differ",
    input_20_reference_too_long "20-reference-too-long",
    input_21_umlaut "21-umlaut",
    input_22_small_letters_under_unoa "22-small-letters-under-unoa",
    input_23_unoc_version_3 "23-unoc-version-3",
    input_24_unt_missing "24-unt-missing",
    input_25_question_mark_not_released "25-question-mark-not-released",
    input_26_cut_off "26-cut-off",
    input_27_unz_missing "27-unz-missing",
    input_28_apostrophe_not_released "28-apostrophe-not-released",
    input_29_indented_segments "29-indented-segments",
    input_30_last_apostrophe_missing "30-last-apostrophe-missing",
    input_31_message_count "31-message-count",
    input_32_second_interchange_without_advice "32-second-interchange-without-advice",
    input_33_line_feed_in_advice "33-line-feed-in-advice",
    input_34_umlaut_in_utf_8 "34-umlaut-in-utf-8",
    input_35_right "35-right",
}

#[test]
fn every_stored_input_has_its_test() {
    let mut stored: Vec<String> = std::fs::read_dir(folder())
        .expect("the folder")
        .filter_map(|entry| entry.expect("an entry").file_name().into_string().ok())
        .filter_map(|name| name.strip_suffix(".edi").map(str::to_string))
        .collect();
    stored.sort();
    assert_eq!(stored, NAMES);
}
