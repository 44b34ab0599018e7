//! The commands of the oracle. README.md tells what each is for.

use std::io::{Read, Write};
use std::process::ExitCode;

use oracle::case::{read_cases, read_list, Lines};
use oracle::driver::Watch;
use oracle::worker::{work, write_loaded, Oracle, Work};
use oracle::{bare, compare, generate, list, smallest};

const USAGE: &str = "usage:
  oracle generate COUNT SEED [MOST_POINTS]   write inputs
  oracle answer < INPUTS                     write the Rust's answers
  oracle list                                write the fixed list, inputs and answers
  oracle check LIST                          count the entries that the Rust answers otherwise
  oracle inputs LIST                         write the inputs of a list
  oracle compare COUNT SEED [MOST_POINTS] -- PROGRAM [ARGUMENT..]
                                             compare a program's answers with the Rust's
  oracle smallest COUNT SEED SPREAD          search small listings for the kinds of differences
  oracle listing < LINES                     answer lines S, C, P as 01's listing does, as far as
                                             the Rust has it
  oracle beyond < LINES                      the same without stopping at refusals 6 and 7,
                                             at fates 4 and 5 and where a further pass
                                             would add a face
  oracle bare generate COUNT SEED [MOST_POINTS]
                                             write lists of bare points
  oracle bare answer < LISTS                 write the Rust's answers, in list order
  oracle bare compare COUNT SEED [MOST_POINTS] -- PROGRAM [ARGUMENT..]
                                             compare a program's answers with the Rust's
  oracle load generate COUNT SEED [MOST_POINTS]
                                             the same lists in the order in which bulk_load
                                             takes their points
  oracle load answer < LISTS                 write the meshes that bulk_load itself makes
  oracle load compare COUNT SEED [MOST_POINTS] -- PROGRAM [ARGUMENT..]
                                             as `oracle bare compare`, and with these meshes";

fn standard_input() -> String {
    let mut text = String::new();
    std::io::stdin().read_to_string(&mut text).expect("standard input is text");
    text
}

fn print(text: &str) {
    let _ = std::io::stdout().write_all(text.as_bytes());
}

fn file(path: &str) -> Result<String, String> {
    std::fs::read_to_string(path).map_err(|error| format!("{path}: {error}"))
}

/// COUNT SEED [MOST_POINTS].
fn numbers(arguments: &[String]) -> Result<[u64; 3], String> {
    let number = |text: &String| text.parse().map_err(|_| format!("{text} is no number\n{USAGE}"));
    let given: Vec<u64> = arguments.iter().map(number).collect::<Result<_, _>>()?;
    match given[..] {
        [count, seed] => Ok([count, seed, compare::MOST_POINTS]),
        [count, seed, most] => Ok([count, seed, most]),
        _ => Err(USAGE.to_string()),
    }
}

/// COUNT SEED [MOST_POINTS] -- PROGRAM [ARGUMENT..].
fn numbers_and_program(arguments: &[String]) -> Result<([u64; 3], &[String]), String> {
    let split = arguments.iter().position(|a| a == "--").ok_or(USAGE)?;
    let program = &arguments[split + 1..];
    if program.is_empty() {
        return Err(USAGE.to_string());
    }
    Ok((numbers(&arguments[..split])?, program))
}

/// The commands of bare points; `taken`: of lists in the order in which `bulk_load` takes them, and of that
/// function itself.
fn run_bare(taken: bool, arguments: &[String]) -> Result<bool, String> {
    let command = arguments.first().map(String::as_str).unwrap_or_default();
    let rest = &arguments[1.min(arguments.len())..];
    match command {
        "generate" => {
            let [count, seed, most] = numbers(rest)?;
            for number in 0..count {
                let mut text = String::new();
                bare::list(seed, number, most, taken).write(&mut text);
                print(&text);
            }
        }
        "answer" if rest.is_empty() => {
            let mut oracle = Oracle::default();
            for list in Lines::new(&standard_input()).all(bare::read_bare)? {
                let mut text = String::new();
                if taken {
                    write_loaded(&mut text, list.number, oracle.loaded(&list));
                } else {
                    oracle.bare(&list).write(&mut text);
                }
                print(&text);
            }
        }
        "compare" => {
            let (numbers, program) = numbers_and_program(rest)?;
            return bare::at_scale(numbers, taken, program);
        }
        _ => return Err(USAGE.to_string()),
    }
    Ok(true)
}

fn run(arguments: &[String]) -> Result<bool, String> {
    let command = arguments.first().map(String::as_str).unwrap_or_default();
    match (command, &arguments[1.min(arguments.len())..]) {
        ("worker", []) => work(Work::Answer(Watch::Domain)),
        ("worker-centre", []) => work(Work::Answer(Watch::Centre)),
        ("worker-beyond", []) => work(Work::Answer(Watch::Nowhere)),
        ("worker-load", []) => work(Work::Load),
        ("bare", rest) => return run_bare(false, rest),
        ("load", rest) => return run_bare(true, rest),
        ("generate", rest) => {
            let [count, seed, most] = numbers(rest)?;
            for number in 0..count {
                let mut text = String::new();
                generate::case(seed, number, most).write(&mut text);
                print(&text);
            }
        }
        ("answer", []) => {
            let mut oracle = Oracle::default();
            for case in read_cases(&standard_input())? {
                let mut text = String::new();
                oracle.answer(&case).write(&mut text);
                print(&text);
            }
        }
        ("list", []) => print(&list::text()),
        ("check", [path]) => return list::check(&read_list(&file(path)?)?),
        ("inputs", [path]) => {
            let mut text = String::new();
            for (case, _) in read_list(&file(path)?)? {
                case.write(&mut text);
            }
            print(&text);
        }
        ("smallest", [_, _, _]) => smallest::search(numbers(&arguments[1..])?),
        ("compare", rest) => {
            let (numbers, program) = numbers_and_program(rest)?;
            return compare::at_scale(numbers, program);
        }
        ("listing", []) => print(&list::listing(&standard_input(), false)?),
        ("beyond", []) => print(&list::listing(&standard_input(), true)?),
        _ => return Err(USAGE.to_string()),
    }
    Ok(true)
}

fn main() -> ExitCode {
    let arguments: Vec<String> = std::env::args().skip(1).collect();
    match run(&arguments) {
        Ok(true) => ExitCode::SUCCESS,
        Ok(false) => ExitCode::FAILURE,
        Err(text) => {
            eprintln!("{text}");
            ExitCode::from(2)
        }
    }
}
