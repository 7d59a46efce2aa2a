//! What the pictures of plans and of measurements share: colours, words, markup.
pub mod colours;
pub mod markup;
pub mod words;
