//! Document 01's base example.

use crate::build::hex;
use reference::plain::Instance;

/// S: Dent 0, Joint 1, Loss 2.
pub fn base_s() -> Vec<u8> {
    hex("18 42 00 04 84 04 84")
}

/// T: Anomaly 0, Joint 1.
pub fn base_t() -> Vec<u8> {
    hex("10 21 00 04 04")
}

/// The mapping of S to T.
pub fn base_f() -> Vec<u8> {
    hex("01 01 00 80 00")
}

/// The run, with dents 700 and 300, loss 705.
pub fn base_run() -> Vec<u8> {
    hex("00 80 20 04 02 00 00 80 00 01 5E 00 00 00 96 00 00 01 60 80")
}

/// Case 1's result: Sigma of the run.
pub fn base_sigma() -> Vec<u8> {
    hex("00 C0 20 08 00 02 00 00 05 78 00 00 02 58 00 00 05 82")
}

/// Case 3's book: anomalies 300, 705, 700 at joints 0, 1, 1 of 2.
pub fn base_book() -> Vec<u8> {
    let book = Instance {
        rows: vec![3, 2],
        links: vec![vec![0, 1, 1]],
        values: vec![vec![300, 705, 700]],
    };
    book.to_sheet()
}
