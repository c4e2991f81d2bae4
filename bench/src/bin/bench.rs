//! Measures the library against the independent reader and a plain pass over
//! the bytes, or makes a single call so that its instructions can be counted.

use bench::classes::{Class, CLASSES, SIZES};
use bench::measure::in_turns;
use bench::prepared::Prepared;
use bench::report::{print_growth, print_head, print_speeds};
use bench::subjects::Subject;
use std::process::ExitCode;

const USAGE: &str = "usage: bench                              measure all classes and sizes
       bench classes                      the names of the classes
       bench once CLASS SIZE SUBJECT      a single call; SIZE is 1024, 65536 or
                                          1048576, SUBJECT is library, oracle,
                                          plain, or nothing: no call";

fn main() -> ExitCode {
    let arguments: Vec<String> = std::env::args().skip(1).collect();
    let words: Vec<&str> = arguments.iter().map(String::as_str).collect();
    match words[..] {
        [] => measure_all(),
        ["classes"] => print_classes(),
        ["once", class, size, subject] if call_once(class, size, subject).is_some() => {}
        _ => {
            eprintln!("{USAGE}");
            return ExitCode::from(2);
        }
    }
    ExitCode::SUCCESS
}

fn measure_all() {
    print_head();
    let growth = CLASSES.map(|class| {
        let times = SIZES.map(|size| {
            let times = in_turns(&mut Prepared::new(&class, size));
            print_speeds(class.name, size, times);
            times
        });
        (class.name, times)
    });
    print_growth(&growth);
}

fn print_classes() {
    for class in &CLASSES {
        println!("{}", class.name);
    }
}

/// Prepares a source and its tables and makes one call, or none.
fn call_once(class: &str, size: &str, subject: &str) -> Option<()> {
    let class = Class::named(class)?;
    let size = size.parse().ok().filter(|size| SIZES.contains(size))?;
    let subject = match subject {
        "nothing" => None,
        name => Some(Subject::named(name)?),
    };
    let mut lent = Prepared::new(class, size);
    if let Some(subject) = subject {
        subject.call(&mut lent);
    }
    Some(())
}
