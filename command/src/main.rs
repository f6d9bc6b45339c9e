//! Cuts Chinese sentences into words at the command line, by the proved library; and says of a vocabulary what is wrong with it.
mod check;
mod explain;
mod probe;
mod show;
mod vocabulary;

use clap::{Args, Parser, Subcommand, ValueEnum};
use std::fmt::Display;
use std::io::{self, BufRead, IsTerminal, Write};
use std::path::PathBuf;
use std::process::ExitCode;
use tongsvale::{Dictionary, Error, Scratch, Token, Tokens};

/// Chinese sentences into words. Without a dictionary it knows the words of a house.
#[derive(Parser)]
#[command(name = "tongsvale", version, args_conflicts_with_subcommands = true)]
struct Command {
    #[command(subcommand)]
    task: Option<Task>,
    #[command(flatten)]
    cutting: Cutting,
}

#[derive(Subcommand)]
enum Task {
    /// Says line by line what is refused of a vocabulary, and what is loaded but will disappoint
    Check {
        /// Vocabularies: a word, its frequency (1 if there is none) and anything more on each line
        #[arg(value_name = "FILE", required = true)]
        files: Vec<PathBuf>,
    },
}

#[derive(Args)]
struct Cutting {
    /// The sentences; without one they are read line by line
    #[arg(value_name = "SENTENCE")]
    sentences: Vec<String>,
    /// A vocabulary in place of the house's; more than once for several
    #[arg(short, long, value_name = "FILE")]
    dictionary: Vec<PathBuf>,
    /// One word more, or another frequency for a word
    #[arg(short, long, value_name = "WORD=FREQUENCY", value_parser = vocabulary::word)]
    word: Vec<(String, u64)>,
    /// Which cut
    #[arg(long, value_enum, default_value_t = Mode::Cut)]
    mode: Mode,
    /// What stands between two words
    #[arg(short, long, default_value = " / ")]
    separator: String,
    /// A row for each word: its start and end in characters, its frequency, and the word
    #[arg(long, conflicts_with = "explain")]
    table: bool,
    /// Why a sentence is cut so: the words at each position, the step taken, and ties
    #[arg(long)]
    explain: bool,
}

/// The three cuts.
#[derive(Clone, Copy, PartialEq, ValueEnum)]
enum Mode {
    /// The most likely words
    Cut,
    /// Every word there is
    All,
    /// The most likely words, with the shorter ones in them
    Search,
}

impl Mode {
    fn cut<'s, 't>(
        self,
        dictionary: &Dictionary,
        sentence: &'s str,
        scratch: &'t mut Scratch,
    ) -> Result<Tokens<'s, 't>, Error> {
        Ok(match self {
            Mode::Cut => dictionary.cut(sentence, scratch)?,
            Mode::All => dictionary.cut_all(sentence, scratch)?,
            Mode::Search => dictionary.cut_for_search(sentence, scratch)?,
        })
    }
}

/// The tokens of a sentence. Where there are too few places, more are lent and it is cut again.
fn tokens_of<'s>(dictionary: &Dictionary, mode: Mode, sentence: &'s str) -> Result<Vec<Token<'s>>, Error> {
    let mut scratch = Scratch::for_sentence(sentence);
    loop {
        let error = match mode.cut(dictionary, sentence, &mut scratch) {
            Ok(tokens) => return Ok(tokens.collect()),
            Err(error) => error,
        };
        if !scratch.grow(error) {
            return Err(error);
        }
    }
}

impl Cutting {
    fn answer(&self, dictionary: &Dictionary, sentence: &str) -> Result<String, Error> {
        let tokens = tokens_of(dictionary, self.mode, sentence)?;
        let colour = io::stdout().is_terminal();
        if self.explain {
            return explain::explain(dictionary, sentence, &tokens, &self.separator);
        }
        if self.table {
            return show::table(dictionary, &tokens);
        }
        show::line(dictionary, &tokens, &self.separator, colour)
    }

    fn run(&self) -> io::Result<ExitCode> {
        let dictionary = match vocabulary::dictionary(&self.dictionary, &self.word) {
            Ok(dictionary) => dictionary,
            Err(message) => return Ok(refused(message)),
        };
        if self.explain && self.mode != Mode::Cut {
            return Ok(misused("--explain explains --mode cut"));
        }
        let mut out = io::stdout().lock();
        let mut status = ExitCode::SUCCESS;
        let mut answer = |sentence: &str| -> io::Result<()> {
            match self.answer(&dictionary, sentence) {
                Ok(text) => writeln!(out, "{text}")?,
                Err(error) => status = refused(format_args!("{sentence}: {error}")),
            }
            out.flush()
        };
        if !self.sentences.is_empty() {
            for sentence in &self.sentences {
                answer(sentence)?;
            }
            return Ok(status);
        }
        let prompt = io::stdin().is_terminal();
        let mut input = io::stdin().lock();
        let mut line = Vec::new();
        loop {
            if prompt {
                eprint!("> ");
            }
            line.clear();
            if input.read_until(b'\n', &mut line)? == 0 {
                return Ok(status);
            }
            let ended = line.strip_suffix(b"\n").unwrap_or(&line);
            match std::str::from_utf8(ended.strip_suffix(b"\r").unwrap_or(ended)) {
                Ok(sentence) => answer(sentence)?,
                Err(_) => return Ok(refused("a sentence that is not UTF-8")),
            }
        }
    }
}

/// Something was not accepted.
fn refused(message: impl Display) -> ExitCode {
    eprintln!("tongsvale: {message}");
    ExitCode::from(1)
}

/// The command was asked for something that it does not have.
fn misused(message: impl Display) -> ExitCode {
    eprintln!("tongsvale: {message}");
    ExitCode::from(2)
}

fn main() -> ExitCode {
    let command = Command::parse();
    let ended = match &command.task {
        Some(Task::Check { files }) => check::run(files),
        None => command.cutting.run(),
    };
    match ended {
        Ok(status) => status,
        // Whoever read the answers has enough of them.
        Err(error) if error.kind() == io::ErrorKind::BrokenPipe => ExitCode::SUCCESS,
        Err(error) => refused(error),
    }
}
