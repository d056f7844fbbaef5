//! The options of the command.

use crate::{
    case::{Call, CALLS},
    memory::Place,
    selftest,
};

pub struct Options {
    pub cases: u64,
    pub seed: u64,
    pub only: Option<Call>,
    /// One case of the call `only`, shown whole.
    pub case: Option<u64>,
    pub guard: bool,
    pub selftest: bool,
    /// Touch one element that was not lent: where slices lie, and how. The self-test starts this in a process of its own.
    pub touch: Option<(Place, String)>,
}

fn call_of(name: &str) -> Result<Call, String> {
    let names: Vec<&str> = CALLS.iter().map(|(_, name, _)| *name).collect();
    let at = names.iter().position(|of| *of == name);
    at.map(|i| CALLS[i].0).ok_or(format!("no call is named {name}; the calls are {}", names.join(", ")))
}

pub fn parse(arguments: impl Iterator<Item = String>) -> Result<Options, String> {
    let mut options = Options {
        cases: 1_000_000,
        seed: 20_260_101,
        only: None,
        case: None,
        guard: false,
        selftest: false,
        touch: None,
    };
    let mut arguments = arguments.peekable();
    while let Some(name) = arguments.next() {
        let mut value = || arguments.next().ok_or(format!("{name} wants a value"));
        let number = |text: String| text.parse::<u64>().map_err(|_| format!("{text} is no whole number"));
        match name.as_str() {
            "--cases" => options.cases = number(value()?)?,
            "--seed" => options.seed = number(value()?)?,
            "--only" => options.only = Some(call_of(&value()?)?),
            "--case" => options.case = Some(number(value()?)?),
            "--guard" => options.guard = true,
            "--selftest" => options.selftest = true,
            "--touch" => {
                let place = value()?;
                let place = selftest::place_of(&place).ok_or(format!("no place is named {place}"))?;
                options.touch = Some((place, value()?));
            }
            _ => return Err(format!("there is no option {name}")),
        }
    }
    if options.case.is_some() && options.only.is_none() {
        return Err("--case wants --only CALL".to_string());
    }
    Ok(options)
}
