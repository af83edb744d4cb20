//! The options of the program.

/// What to try.
pub struct Options {
    pub file: Option<String>,
    pub definition: Option<String>,
    pub jobs: usize,
    pub part: (usize, usize),
    pub whole: bool,
    pub show: bool,
}

impl Options {
    pub fn read() -> Result<Options, String> {
        let mut options = Options {
            file: None,
            definition: None,
            jobs: 2,
            part: (1, 1),
            whole: false,
            show: false,
        };
        let mut words = std::env::args().skip(1);
        while let Some(word) = words.next() {
            let mut value = || words.next().ok_or(format!("{word}: a value is missing"));
            match word.as_str() {
                "--file" => options.file = Some(value()?),
                "--definition" => options.definition = Some(value()?),
                "--jobs" => options.jobs = value()?.parse().map_err(|e| format!("--jobs: {e}"))?,
                "--part" => options.part = part(&value()?)?,
                "--whole" => options.whole = true,
                "--show" => options.show = true,
                _ => return Err(format!("not an option: {word}")),
            }
        }
        Ok(options)
    }

    /// Whether a definition (of a file as `model/specs/Site.antt`) is to be tried.
    pub fn selects(&self, file: &str, definition: &str) -> bool {
        let in_file = |f: &String| file.ends_with(&format!("/{f}.antt"));
        self.file.as_ref().is_none_or(in_file)
            && self.definition.as_ref().is_none_or(|d| d == definition)
    }
}

fn part(text: &str) -> Result<(usize, usize), String> {
    let numbers = text
        .split_once('/')
        .and_then(|(k, n)| Some((k.parse().ok()?, n.parse().ok()?)));
    numbers
        .filter(|(k, n)| (1..=*n).contains(k))
        .ok_or(format!("--part: not K/N: {text}"))
}

#[cfg(test)]
mod tests {
    use super::*;

    #[test]
    fn parts() {
        assert_eq!(part("2/3"), Ok((2, 3)));
        assert!(part("0/3").is_err() && part("4/3").is_err() && part("3").is_err());
    }
}
