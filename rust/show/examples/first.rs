//! Reads a show file from standard input and tells how far it is from its first cue to its last.

use show::{Rows, MAX_FILE, ROWS_LEN, WORK_LEN};
use std::error::Error;
use std::io::Read;

fn told() -> Result<String, Box<dyn Error>> {
    let mut file = Vec::new();
    std::io::stdin().take(MAX_FILE as u64 + 1).read_to_end(&mut file)?;
    let mut room = vec![0; ROWS_LEN];
    let show = Rows::read(&file, &mut room)?;
    let fewest = match show.rows.fewest(1, show.cues, &mut vec![0; WORK_LEN])? {
        Some(steps) => steps.to_string(),
        None => "none, no chain leads there".to_string(),
    };
    Ok(format!("fewest follow-ons from cue 1 to cue {}: {fewest}", show.cues))
}

fn main() {
    match told() {
        Ok(told) => println!("{told}"),
        Err(refused) => {
            eprintln!("{refused}");
            std::process::exit(1);
        }
    }
}
