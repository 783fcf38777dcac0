//! Every text of docs/TEXT.md can be read.

use crate::model::House;
use crate::text::{self, NoHouse, Text};

const PAGE: &str = include_str!("../../../docs/TEXT.md");

#[test]
fn the_page_s_texts_can_be_read() {
    let texts: Vec<&str> = PAGE.split("```").skip(1).step_by(2).collect();
    let none = |_: &str| Err(NoHouse::Message("no file here".to_string()));
    let house = match text::read("house.txt", texts[0].as_bytes(), None, &none) {
        Ok(Text::House(house)) => house,
        _ => panic!("the first text is a house"),
    };
    let fetch = |_: &str| -> Result<House, NoHouse> { Ok(house.clone()) };
    for text in &texts {
        if let Err(mistakes) = text::read("docs/TEXT.md", text.as_bytes(), None, &fetch) {
            panic!("{mistakes}\n{text}");
        }
    }
    assert_eq!(texts.len(), 8);
}
