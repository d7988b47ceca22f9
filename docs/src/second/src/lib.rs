//! A second program for the paper "What we will build and its rules" and for
//! the change requests that have landed: it judges one EDIFACT interchange,
//! reads its values, writes interchanges, makes a normal form, says whether two
//! interchanges are the same, keeps normal forms on a shelf, reports on a file of
//! interchanges, judges by a table of message structures, acknowledges an
//! interchange, and puts one into columns and back.
//!
//! One module for one idea; the first comment of each module names the clause
//! of the paper, or the request, that it follows. The operations stand in
//! `operations`, those of the shelf in `shelf` and `carrying_over`, the report in
//! `mailbox`.

pub mod acknowledgement;
pub mod acknowledgement_cases;
pub mod acknowledgement_checks;
pub mod break_cases;
pub mod break_checks;
pub mod carrying_checks;
pub mod carrying_over;
pub mod cases;
pub mod column_cases;
pub mod column_checks;
pub mod columns;
pub mod contents;
pub mod control;
pub mod either_order;
pub mod generator;
pub mod judging;
pub mod level;
pub mod line_breaks;
pub mod mailbox;
pub mod mailbox_checks;
pub mod message_table;
pub mod normal_form;
pub mod operations;
pub mod order;
pub mod program_lines;
pub mod reading;
pub mod refusal;
pub mod report_lines;
pub mod request_stream;
pub mod respelling;
pub mod section_cases;
pub mod section_checks;
pub mod sections;
pub mod selftest;
pub mod service_characters;
pub mod shelf;
pub mod shelf_checks;
pub mod shelf_layout;
pub mod shelf_lines;
pub mod standard_examples;
pub mod table_checks;
pub mod table_walk;
pub mod trimming;
pub mod value_list;
pub mod version_cases;
pub mod version_checks;
