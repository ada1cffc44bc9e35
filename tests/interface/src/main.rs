//! The console's scripts (docs/CONSOLE.md) through the C interface: the driver is that of the second implementation, the device the proved one.

use interface::Rocker;
use model::console::{run, Driver};
use std::io;

fn main() -> io::Result<()> {
    let mut console = Driver::<Rocker>::default();
    run("console", |line| console.line(line))
}
