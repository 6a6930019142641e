//! What the command line asks for.

use crate::fused::LONG;

/// How the program is called.
pub const USAGE: &str = "\
usage: arith-check root [--from HEX] [--to HEX] [--threads N]
       arith-check fused [--count N] [--seed S] [--threads N]
       arith-check speed
       arith-check short [--seed S] [--threads N]";

/// The seed when none is given.
pub const SEED: u64 = 1;

/// One of the forms of the program.
#[derive(Clone, Copy, Debug, PartialEq, Eq)]
pub enum Command {
    /// The square root over a range of patterns, ends included.
    Root {
        /// The first pattern.
        from: u32,
        /// The last pattern.
        to: u32,
        /// How many threads to use.
        threads: usize,
    },
    /// The fused multiply-add over many triples.
    Fused {
        /// How many triples to run at least.
        count: u64,
        /// What the generated triples depend on.
        seed: u64,
        /// How many threads to use.
        threads: usize,
    },
    /// The times beside the C library's.
    Speed,
    /// A little of both comparisons.
    Short {
        /// What the generated triples depend on.
        seed: u64,
        /// How many threads to use.
        threads: usize,
    },
}

/// Reads the arguments after the program's name.
pub fn parse(arguments: &[String]) -> Result<Command, String> {
    let (name, rest) = arguments.split_first().ok_or("a form must be named")?;
    let mut options = Options::new(rest)?;
    let command = match name.as_str() {
        "root" => Command::Root {
            from: options.pattern("--from", 0)?,
            to: options.pattern("--to", u32::MAX)?,
            threads: options.threads()?,
        },
        "fused" => Command::Fused {
            count: options.number("--count", LONG)?,
            seed: options.number("--seed", SEED)?,
            threads: options.threads()?,
        },
        "speed" => Command::Speed,
        "short" => Command::Short {
            seed: options.number("--seed", SEED)?,
            threads: options.threads()?,
        },
        _ => return Err(format!("no form is called {name}")),
    };
    match (options.0.first(), command) {
        (Some((option, _)), _) => Err(format!("{name} does not take {option}")),
        (_, Command::Root { from, to, .. }) if from > to => Err("--from is above --to".to_string()),
        _ => Ok(command),
    }
}

/// The options that nobody has taken yet, with their values.
struct Options<'a>(Vec<(&'a str, &'a str)>);

impl<'a> Options<'a> {
    fn new(arguments: &'a [String]) -> Result<Options<'a>, String> {
        let pair = |two: &'a [String]| match two {
            [option, value] => Ok((option.as_str(), value.as_str())),
            _ => Err(format!("{} has no value", two[0])),
        };
        let pairs: Result<_, String> = arguments.chunks(2).map(pair).collect();
        Ok(Options(pairs?))
    }

    /// Takes the value of `option` if it was given.
    fn take(&mut self, option: &str) -> Option<&'a str> {
        let place = self.0.iter().position(|(name, _)| *name == option)?;
        Some(self.0.remove(place).1)
    }

    /// A pattern in hexadecimal.
    fn pattern(&mut self, option: &str, default: u32) -> Result<u32, String> {
        let Some(value) = self.take(option) else {
            return Ok(default);
        };
        let digits = value.strip_prefix("0x").unwrap_or(value);
        u32::from_str_radix(digits, 16).map_err(|_| format!("{option} {value} is no pattern"))
    }

    /// A whole number in decimal.
    fn number(&mut self, option: &str, default: u64) -> Result<u64, String> {
        match self.take(option) {
            None => Ok(default),
            Some(value) => value
                .parse()
                .map_err(|_| format!("{option} {value} is no whole number")),
        }
    }

    /// The number of threads; when it is not given, what the machine has.
    fn threads(&mut self) -> Result<usize, String> {
        let available = std::thread::available_parallelism().map_or(1, usize::from);
        match self.number("--threads", available as u64)? {
            threads @ 1..=1024 => Ok(threads as usize),
            threads => Err(format!("--threads {threads} is not from 1 to 1024")),
        }
    }
}

#[cfg(test)]
mod tests {
    use super::*;

    fn parsed(line: &str) -> Result<Command, String> {
        let arguments: Vec<String> = line.split_whitespace().map(String::from).collect();
        parse(&arguments)
    }

    #[test]
    fn root_has_all_patterns_unless_told() {
        let (from, to, threads) = (0, u32::MAX, 2);
        let all = Command::Root { from, to, threads };
        assert_eq!(parsed("root --threads 2"), Ok(all));
        let (from, to, threads) = (0x3f80_0000, 0x4000_0000, 1);
        let some = Command::Root { from, to, threads };
        let line = "root --to 0x40000000 --threads 1 --from 3f800000";
        assert_eq!(parsed(line), Ok(some));
    }

    #[test]
    fn fused_runs_the_long_form_unless_told() {
        let (count, seed, threads) = (LONG, SEED, 1);
        let long = Command::Fused {
            count,
            seed,
            threads,
        };
        assert_eq!(parsed("fused --threads 1"), Ok(long));
        let (count, seed, threads) = (5, 7, 3);
        let some = Command::Fused {
            count,
            seed,
            threads,
        };
        let line = "fused --count 5 --seed 7 --threads 3";
        assert_eq!(parsed(line), Ok(some));
    }

    #[test]
    fn wrong_lines_are_refused() {
        for line in [
            "",
            "cube",
            "root --from",
            "root --from xyz",
            "root --from 123456789",
            "root --from 2 --to 1",
            "root --seed 1",
            "root --threads 0",
            "fused --count -1",
            "fused --seed 1 --seed 2",
            "speed --threads 2",
        ] {
            assert!(parsed(line).is_err(), "{line}");
        }
    }
}
