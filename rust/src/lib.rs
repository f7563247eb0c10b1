//! A second source for documents 01 and 02: the USI module in I2C and SPI mode, the reader and writer of bus
//! records, and arbitration, written from the rules alone and compared with the proved library; and of the
//! program `rig`, from the description of its text.

pub mod arbitration;
pub mod bus;
pub mod capture;
pub mod cases;
pub mod catalogue;
pub mod compare;
pub mod dump;
pub mod dump_reader;
pub mod module;
pub mod night;
pub mod packed;
pub mod phases;
pub mod random;
pub mod refusal;
pub mod rig;
