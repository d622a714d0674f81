//! Writes inputs of hallrun and what it has to print: `runs DIRECTORY COUNT` makes NAME.in and
//! NAME.out there for each fixed input, and NNNN.in and NNNN.out for so many generated ones.

use reference::generate::{fixed::fixed_inputs, lines::input};
use reference::hallrun::run;
use std::path::Path;
use std::{env, fs, io};

fn main() -> io::Result<()> {
    let arguments: Vec<String> = env::args().skip(1).collect();
    let [directory, count] = &arguments[..] else { panic!("usage: runs DIRECTORY COUNT") };
    let count: u64 = count.parse().expect("COUNT is a number");
    let directory = Path::new(directory);
    fs::create_dir_all(directory)?;
    let fixed = fixed_inputs().map(|(name, input)| (name.to_string(), input));
    let generated = (0..count).map(|index| (format!("{index:04}"), input(index)));
    for (name, input) in fixed.into_iter().chain(generated) {
        fs::write(directory.join(format!("{name}.in")), &input)?;
        fs::write(directory.join(format!("{name}.out")), run(&input))?;
    }
    Ok(())
}
