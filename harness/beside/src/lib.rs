//! What the benchmark and the comparison share: seeded numbers, texts, phrase files, and a model of document 01.
pub mod book;
pub mod cases;
pub mod encoders;
pub mod files;
pub mod lent;
pub mod model;
pub mod random;
pub mod text;
pub mod train;
