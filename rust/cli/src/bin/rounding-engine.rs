//! A layout engine that rounds lengths at each cut, to try the tools on: a sheet on standard input, a stored sheet or
//! `refused 10` on standard output. Its one argument is the step: 0.1mm (where it is not given), 0.1pt or none.

use backbone::split_stored;
use model::rounding::{lay_out, Rounding, Unserved};
use model::rules::layout_words;
use sheet::Record;
use std::io::{Read, Write};
use std::process::ExitCode;

fn main() -> ExitCode {
    let done =
        answer().and_then(|text| std::io::stdout().write_all(text.as_bytes()).map_err(|error| error.to_string()));
    match done {
        Ok(()) => ExitCode::SUCCESS,
        Err(problem) => {
            // Where standard error is closed there is nobody left to tell.
            let _ = writeln!(std::io::stderr(), "rounding-engine: {problem}");
            ExitCode::from(3)
        }
    }
}

fn answer() -> Result<String, String> {
    let step = std::env::args().nth(1).unwrap_or_else(|| Rounding::TenthMillimetre.name().to_string());
    let rounding =
        Rounding::from_name(&step).ok_or_else(|| format!("the step is 0.1mm, 0.1pt or none, not '{step}'"))?;
    let mut bytes = Vec::new();
    std::io::stdin().read_to_end(&mut bytes).map_err(|error| error.to_string())?;
    let record = sheet::read(&bytes).map_err(|error| error.to_string())?;
    let words = split_stored(&record.words).0.to_vec();
    let sheet = model::sheet::read(&words).map_err(|refusal| format!("the sheet is refused {refusal}"))?;
    match lay_out(&sheet, rounding) {
        Ok(slot_of) => Ok(sheet::show_record(&Record::of_words([words, layout_words(&sheet, &slot_of)].concat()))),
        Err(Unserved::NoLayout) => Ok("refused 10\n".to_string()),
        Err(Unserved::TwoSided) => Err("the sheet is refused 18".to_string()),
    }
}
