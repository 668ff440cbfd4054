//! What the host tests share: the archive they link, their counts, the notation of their tables, the check of document 01
//! on an explicit tree, and random sequences.
pub mod counts;
pub mod generate;
pub mod reference;
pub mod table;
