//! The arguments of the comparisons: `[COUNT [SEED]] [--wrong-rule [NAME]]`.

pub struct Arguments<W> {
    pub count: u64,
    pub seed: u64,
    /// A wrong rule for the model, or none.
    pub wrong: W,
}

impl<W> Arguments<W> {
    /// Reads the words over the usual arguments; `first` is the wrong rule that
    /// stands for none named. None if a word can't be read.
    pub fn read(
        words: &[String],
        usual: Arguments<W>,
        first: W,
        named: impl Fn(&str) -> Option<W>,
    ) -> Option<Arguments<W>> {
        let mut arguments = usual;
        let mut first = Some(first);
        let mut numbers = 0;
        let mut words = words.iter().peekable();
        while let Some(word) = words.next() {
            if word == "--wrong-rule" {
                let wrong = words.peek().and_then(|name| named(name));
                if wrong.is_some() {
                    words.next();
                }
                arguments.wrong = wrong.or(first.take())?;
            } else {
                let place = [&mut arguments.count, &mut arguments.seed].into_iter().nth(numbers)?;
                *place = word.parse().ok()?;
                numbers += 1;
            }
        }
        Some(arguments)
    }
}

/// The wrong rule of this name.
pub fn named<T: Copy>(slips: &[(&str, T)], name: &str) -> Option<T> {
    slips.iter().find(|(n, _)| *n == name).map(|(_, slip)| *slip)
}
