use clap::Args;

use crate::input::{each, Files, ROOM};
use crate::output::{Output, Said};
use crate::{Status, Trouble};

#[derive(Args)]
#[command(about = "Prints the values of interchanges in columns, for a spreadsheet.", long_about = LONG)]
pub struct Export {
    /// Print a sheet of text cells (flat OpenDocument, .fods) in place of lines with tabs.
    #[arg(long)]
    ods: bool,
    #[command(flatten)]
    files: Files,
}

const LONG: &str = "\
Prints the values of interchanges in columns, for a spreadsheet.

After a heading line there is a line for each value: its segment, element, repeat and
component, each numbered from 0, and the value without release characters, separated by
tabs. import takes the lines of one FILE, as long as they are saved as they are: tabs, line
feeds alone, no quotes. Of a FILE that is refused, standard error says so: refused NUMBER
PLACE and why.

Open every column as text. A spreadsheet that opens them as numbers changes values in
silence: 0930 becomes 930, references lose their zeros, 12.50 becomes 12.5; and it runs a
value that begins with =, which a partner may have sent, as a formula. --ods prints a sheet
whose cells are text, which it opens as they are (LibreOffice: save it as .fods). To bring
it back, save it as text with tabs, and let 'import --like' name what differs.";

impl Export {
    pub fn run(&self, output: &mut Output) -> Result<Status, Trouble> {
        each(output, &self.files, ROOM, |input| match hverolda::columns(&input.bytes) {
            Ok(text) if self.ods => Said::Text(sheet(&text)),
            Ok(text) => Said::Text(text),
            Err(refusal) => Said::NoText("refused", refusal),
        })
    }
}

const BEGINNING: &str = r#"<?xml version="1.0" encoding="UTF-8"?>
<office:document xmlns:office="urn:oasis:names:tc:opendocument:xmlns:office:1.0" xmlns:style="urn:oasis:names:tc:opendocument:xmlns:style:1.0" xmlns:text="urn:oasis:names:tc:opendocument:xmlns:text:1.0" xmlns:table="urn:oasis:names:tc:opendocument:xmlns:table:1.0" xmlns:number="urn:oasis:names:tc:opendocument:xmlns:datastyle:1.0" office:version="1.2" office:mimetype="application/vnd.oasis.opendocument.spreadsheet">
<office:automatic-styles>
<number:text-style style:name="text"><number:text-content/></number:text-style>
<style:style style:name="cell" style:family="table-cell" style:data-style-name="text"/>
</office:automatic-styles>
<office:body><office:spreadsheet><table:table table:name="interchange">
<table:table-column table:number-columns-repeated="5" table:default-cell-style-name="cell"/>
"#;

const END: &str = "</table:table></office:spreadsheet></office:body>\n</office:document>\n";

/// Lines with tabs as a sheet: every cell is text.
fn sheet(text: &[u8]) -> Vec<u8> {
    let cell = |value: &str| {
        format!(
            "<table:table-cell table:style-name=\"cell\" office:value-type=\"string\"><text:p>{}</text:p></table:table-cell>",
            marked(value)
        )
    };
    let row = |line: &str| {
        let cells: String = line.split('\t').map(cell).collect();
        format!("<table:table-row>{cells}</table:table-row>\n")
    };
    let rows: String = String::from_utf8_lossy(text).lines().map(row).collect();
    format!("{BEGINNING}{rows}{END}").into_bytes()
}

/// A value as XML has it: a space is an element, since several would become one.
fn marked(value: &str) -> String {
    let one = |c: char| match c {
        '&' => "&amp;".to_string(),
        '<' => "&lt;".to_string(),
        '>' => "&gt;".to_string(),
        ' ' => "<text:s/>".to_string(),
        _ => c.to_string(),
    };
    value.chars().map(one).collect()
}

#[cfg(test)]
mod tests {
    use super::*;

    #[test]
    fn signs_of_xml_are_escaped_and_spaces_kept() {
        assert_eq!(marked("A  <&>\"'=1"), "A<text:s/><text:s/>&lt;&amp;&gt;\"'=1");
        let sheet = String::from_utf8(sheet(b"a\tb\n0\t =1+1\n")).unwrap();
        assert!(sheet.contains("<text:p><text:s/>=1+1</text:p></table:table-cell></table:table-row>\n</table:table>"));
        assert_eq!(sheet.matches("<table:table-cell ").count(), 4);
    }
}
