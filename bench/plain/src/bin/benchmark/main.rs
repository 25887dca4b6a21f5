//! Does the work that each line of standard input names, as many times as the line says, and prints what came of it: the same
//! work, and the same print, as the benchmark of the kernel.

mod readings;
mod ring;
mod rounds;
mod sites;
mod tally;

use readings::read_over;
use rounds::worked;
use sites::Site;
use std::error::Error;
use std::io::{self, BufRead};
use tally::Tally;

/// Does a work as many times as a number says.
fn done(work: &str, times: u32) -> Result<Tally, Box<dyn Error>> {
    match work {
        "acts small" => Ok(worked(Site::Small, times)),
        "acts full" => Ok(worked(Site::Full, times)),
        "plans small" => Ok(read_over(Site::Small, times)),
        "plans full" => Ok(read_over(Site::Full, times)),
        _ => Err("there is no such work".into()),
    }
}

fn main() -> Result<(), Box<dyn Error>> {
    for line in io::stdin().lock().lines() {
        let line = line?;
        let (work, times) = line.rsplit_once(' ').unwrap_or_default();
        let tally = done(work, times.parse()?)?;
        println!("{work} {times}: {tally}");
    }
    Ok(())
}
