//! Sends a call script from standard input through the model; answers go to standard output.

use std::io::{self, BufWriter};

use comparison::calls::replay;
use comparison::model::Model;

fn main() -> io::Result<()> {
    replay(&mut Model::factory(), io::stdin().lock(), &mut BufWriter::new(io::stdout().lock()))
}
