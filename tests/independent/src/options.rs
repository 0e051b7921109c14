//! The words after a command: options with numbers, and what a program is started with.

/// The numbers that follow options of a command.
#[derive(Default)]
pub struct Options {
    pub seed: Option<u64>,
    pub count: Option<u64>,
    pub seconds: Option<u64>,
}

impl Options {
    pub fn read(words: &[&str], allowed: &[&str]) -> Result<Options, String> {
        let mut options = Options::default();
        for pair in words.chunks(2) {
            let [name, value] = pair else {
                return Err(format!("{} needs a number", pair[0]));
            };
            if !allowed.contains(name) {
                return Err(format!("no option {name} here; it takes {}", allowed.join(", ")));
            }
            let value = Some(number(value)?);
            match *name {
                "--seed" => options.seed = value,
                "--count" => options.count = value,
                _ => options.seconds = value,
            }
        }
        Ok(options)
    }
}

/// The number of a word.
pub fn number<T: std::str::FromStr>(word: &str) -> Result<T, String> {
    word.parse().map_err(|_| format!("'{word}' is no number that fits here"))
}

/// The options before `--`, and what the program is started with after it.
pub fn program_arguments<'a>(words: &'a [&'a str]) -> (&'a [&'a str], Vec<String>) {
    let end = words.iter().position(|word| *word == "--").unwrap_or(words.len());
    let arguments = words.iter().skip(end + 1).map(|word| word.to_string()).collect();
    (&words[..end], arguments)
}
