//! The options that are for the library alone.

use crate::arguments::{number, Given};
use crate::card::Card;

pub struct Options {
    pub lists: u64,
    pub logs: u64,
    pub tried: Option<Vec<u64>>,
    pub card: u64,
    pub startup_len: Option<usize>,
    pub cycle_len: Option<usize>,
    pub row_len: Option<usize>,
}

pub fn read(given: &[Given]) -> Result<Options, String> {
    let mut options = Options {
        lists: 200_000,
        logs: 20_000,
        tried: None,
        card: Card::Wide.number(),
        startup_len: None,
        cycle_len: None,
        row_len: None,
    };
    for (name, value) in given {
        match name.as_str() {
            "--lists" => options.lists = number(value)?,
            "--logs" => options.logs = number(value)?,
            "--try" => {
                let list: Result<_, _> = value.split_whitespace().map(number).collect();
                options.tried = Some(list?);
            }
            "--card" => options.card = number(value)?,
            "--startup" => options.startup_len = Some(number(value)?),
            "--cycle" => options.cycle_len = Some(number(value)?),
            "--row" => options.row_len = Some(number(value)?),
            _ => return Err(format!("{name} is not known")),
        }
    }
    Ok(options)
}
