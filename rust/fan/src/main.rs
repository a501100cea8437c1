//! The fan event, acted out: see the library beside this.

use std::process::ExitCode;

fn main() -> ExitCode {
    let options = match fan::Options::of(std::env::args().skip(1)) {
        Ok(options) => options,
        Err(why) => {
            eprintln!("{why}\n{}", fan::USAGE);
            return ExitCode::from(2);
        }
    };
    let (story, sound) = fan::story(options);
    print!("{story}");
    ExitCode::from(u8::from(!sound))
}
