//! hverolda-refusals(7), from the words that the crate has for each number.

use crate::page::Page;
use crate::Written;

pub fn page() -> Written {
    let mut page = Page::new("hverolda-refusals", "7", "what each refusal of hverolda means");
    page.heading("DESCRIPTION").text(
        "What is not accepted is refused by a number, with a place. Where several rules are broken, the first in \
         the order of the check answers, and within a step the lowest place.",
    );
    page.heading("REFUSALS");
    for words in hverolda::words() {
        page.subheading(&format!("{}: {}", words.number, words.title));
        page.text(words.meaning);
        page.item("What to look at", words.look);
        page.item("Example", words.example);
        page.item("Place", words.place);
    }
    page.heading("SEE ALSO").text("hverolda(1), hverolda(3)");
    page.written()
}
