//! What is measured of a call.

use crate::calls::{Call, Setting};
use crate::readers;

pub trait Meter {
    /// A figure of one call for each engine.
    fn engines(&mut self, setting: &Setting, call: &Call) -> [f64; 3];

    /// A figure of all calls of a reader for each engine.
    fn readers(&mut self, call: &readers::Call) -> [f64; 2];

    /// A figure of reading site and state once.
    fn floor(&mut self, setting: &Setting) -> f64;

    /// A figure with its unit.
    fn show(&self, figure: f64) -> String;
}
