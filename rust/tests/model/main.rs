//! The model by the rules and worked numbers, the comparison and the stored answers: one program, linked once.

mod arbitration;
mod bus;
mod capture;
mod catalogue;
mod comparison;
mod corpus;
mod dump;
mod dump_reader;
mod lent;
mod module;
mod night;
mod scripts;
mod spi;
