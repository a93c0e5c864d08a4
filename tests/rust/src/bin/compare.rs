//! Compares the archive with the model over random and hostile histories. `SERKOVIU_SEED` and `SERKOVIU_HISTORIES`
//! change what is drawn and how much; a difference is printed as the shortest call script found that shows it.

use std::process::ExitCode;
use std::{env, str::FromStr};

use comparison::archive::Archive;
use comparison::compare::compare;
use comparison::histories::{histories, HISTORIES};
use comparison::model::Model;

fn setting<T: FromStr>(name: &str, default: T) -> T {
    match env::var(name) {
        Ok(text) => text.parse().unwrap_or_else(|_| panic!("{name} is no number: {text}")),
        Err(_) => default,
    }
}

fn main() -> ExitCode {
    let seed: u64 = setting("SERKOVIU_SEED", 1);
    let number: u64 = setting("SERKOVIU_HISTORIES", HISTORIES);
    match compare(&|| Box::new(Archive::factory()), &|| Box::new(Model::factory()), histories(seed, number)) {
        Ok(calls) => {
            println!("seed {seed}: {number} histories, {calls} calls, archive and model agree");
            ExitCode::SUCCESS
        }
        Err(difference) => {
            print!("# seed {seed}: archive (left) and model (right) differ after the last call\n{difference}");
            ExitCode::FAILURE
        }
    }
}
