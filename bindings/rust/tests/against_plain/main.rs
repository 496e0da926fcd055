//! The binding held to an independent implementation by plain search.

mod books;
mod calls;
mod cases;
mod expected;
mod header;
mod layer;
mod limits;
mod plain;
mod random;
