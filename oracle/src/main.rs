//! The commands of the oracle; the README lists them.

use std::env;
use std::io::{self, Read, Write};
use std::process::ExitCode;

use oracle::compare::{Sizes, compare};
use oracle::hand::Hand;
use oracle::hand::question::Question as HandQuestion;
use oracle::hand::record::answers as hand_answers;
use oracle::judge::print_counts;
use oracle::options::{Options, ended};
use oracle::record::answers;
use oracle::show::show;
use oracle::suit::question::Question as SuitQuestion;
use oracle::suit::record::answers as suit_answers;
use oracle::words::question::Question as WordQuestion;
use oracle::words::record::answers as word_answers;
use oracle::{judge, make, merged, searched};

const USAGE: &str = "usage:
  oracle answer < hands > answers
  oracle judge < hands > answers
  oracle show < hands
  oracle hands < questions > answers
  oracle judge-hands < questions > answers
  oracle suits < questions > answers
  oracle judge-suits < questions > answers
  oracle words < questions > answers
  oracle compare [--seed S] [--suits N] [--hands N] [--all-suits]
  oracle targets
  oracle make table > hands
  oracle make hands [--seed S] [--count N] [--broken BYTES] > hands
  oracle make questions [--seed S] [--count N] > questions
  oracle make suits [--seed S] [--count N] > questions
  oracle make words [--seed S] [--count N] > questions";

fn main() -> ExitCode {
    let mut words = env::args().skip(1);
    let command = words.next().unwrap_or_default();
    ended(run(&command, words), USAGE)
}

/// Says whether the command found nothing wrong.
fn run(command: &str, mut words: impl Iterator<Item = String>) -> Result<bool, String> {
    match command {
        "answer" => through(words, |input| Ok(answers(input, merged::answer))),
        "judge" => through(words, |input| Ok(answers(input, judge::answer))),
        "show" => through(words, |input| Ok(show(input).into_bytes())),
        "hands" => through(words, |input| hand_answers(input, merged::answer)),
        "judge-hands" => through(words, |input| hand_answers(input, judge::answer)),
        "suits" => through(words, |input| suit_answers(input, searched::answer)),
        "judge-suits" => through(words, |input| suit_answers(input, judge::suit_answer)),
        "words" => through(words, word_answers),
        "compare" => run_compare(Options::new(words)),
        "targets" => {
            Options::new(words).end()?;
            print_counts();
            Ok(true)
        }
        "make" => {
            let what = words.next().unwrap_or_default();
            run_make(&what, Options::new(words))
        }
        other => Err(format!("not understood: {other}")),
    }
}

/// Standard input through a function to standard output.
fn through(
    words: impl Iterator<Item = String>,
    function: impl Fn(&[u8]) -> Result<Vec<u8>, String>,
) -> Result<bool, String> {
    Options::new(words).end()?;
    let mut input = Vec::new();
    io::stdin()
        .read_to_end(&mut input)
        .map_err(|error| error.to_string())?;
    write(&function(&input)?)
}

fn run_compare(mut options: Options) -> Result<bool, String> {
    let sizes = Sizes {
        seed: options.number("--seed", 1)?,
        suits: options.number("--suits", 40_000)?,
        hands: options.number("--hands", 20_000)?,
        all_suits: options.flag("--all-suits"),
    };
    options.end()?;
    Ok(compare(&sizes))
}

fn run_make(what: &str, mut options: Options) -> Result<bool, String> {
    let bytes = match what {
        "table" => make::table().iter().flat_map(Hand::record).collect(),
        "hands" => make_hands(&mut options)?,
        "questions" => make_questions(&mut options)?,
        "suits" => make_suits(&mut options)?,
        "words" => make_words(&mut options)?,
        other => return Err(format!("not understood: make {other}")),
    };
    options.end()?;
    write(&bytes)
}

fn make_hands(options: &mut Options) -> Result<Vec<u8>, String> {
    let seed = options.number("--seed", 1)?;
    let count = options.number("--count", 4_000)?;
    let broken = options.number("--broken", 0)?;
    if broken > 35 {
        return Err("a broken piece has at most 35 bytes".into());
    }
    let hands = make::hands(seed, count as usize);
    let mut bytes: Vec<u8> = hands.iter().flat_map(Hand::record).collect();
    bytes.extend((0..broken).map(|_| 1));
    Ok(bytes)
}

fn make_questions(options: &mut Options) -> Result<Vec<u8>, String> {
    let seed = options.number("--seed", 1)?;
    let count = options.number("--count", 2_200)?;
    let questions = make::questions::questions(seed, count as usize);
    Ok(questions.iter().flat_map(HandQuestion::record).collect())
}

fn make_suits(options: &mut Options) -> Result<Vec<u8>, String> {
    let seed = options.number("--seed", 1)?;
    let count = options.number("--count", 1_500)?;
    let questions = make::suits::suits(seed, count as usize);
    Ok(questions.iter().flat_map(SuitQuestion::record).collect())
}

fn make_words(options: &mut Options) -> Result<Vec<u8>, String> {
    let seed = options.number("--seed", 1)?;
    let count = options.number("--count", 2_000)?;
    let questions = make::words::words(seed, count as usize);
    Ok(questions.iter().flat_map(WordQuestion::record).collect())
}

fn write(bytes: &[u8]) -> Result<bool, String> {
    let written = io::stdout().write_all(bytes);
    written.map_err(|error| error.to_string())?;
    Ok(true)
}
