//! The desk's side of the judge: texts, sentences and pictures for words and
//! numbers. Nothing here decides: verdicts are the proved library's.

pub mod answer;
pub mod decode;
pub mod encode;
pub mod model;
pub mod picture;
pub mod relation;
pub mod scene;
pub mod text;
pub mod trial;
pub mod words;

#[cfg(test)]
mod tests;
