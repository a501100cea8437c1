//! What the program is asked.

pub const USAGE: &str =
    "usage: fan [--seed N] [--loss PERCENT] [--repeat PERCENT] [--reorder PERCENT] [--events N]
       fan --slow [--seed N] [--loss PERCENT]";

/// The most events that are published in a run.
const MOST_EVENTS: usize = 10_000;

#[derive(Clone, Copy, Debug, PartialEq, Eq)]
pub struct Options {
    /// The story of the slow station, not that of the silent one.
    pub slow: bool,
    /// Where the link's chance starts.
    pub seed: usize,
    /// Packets lost, of a hundred.
    pub loss: usize,
    /// Packets that come a second time, of a hundred.
    pub repeat: usize,
    /// Packets overtaken by later ones, of a hundred.
    pub reorder: usize,
    /// Events to publish.
    pub events: usize,
}

impl Default for Options {
    fn default() -> Self {
        Options {
            slow: false,
            seed: 5,
            loss: 20,
            repeat: 10,
            reorder: 15,
            events: 14,
        }
    }
}

impl Options {
    /// Of the slow story: its link keeps order, and loses a packet now and then.
    pub fn slow() -> Self {
        Options {
            slow: true,
            loss: 5,
            repeat: 0,
            reorder: 0,
            events: 24,
            ..Options::default()
        }
    }

    /// By the words of a command line, or what is wrong with them.
    pub fn of(words: impl IntoIterator<Item = String>) -> Result<Self, String> {
        let (slow, numbers): (Vec<_>, Vec<_>) =
            words.into_iter().partition(|word| word == "--slow");
        let mut options = match slow.is_empty() {
            true => Options::default(),
            false => Options::slow(),
        };
        let mut words = numbers.into_iter();
        while let Some(name) = words.next() {
            let (place, most) = options.named(&name)?;
            let value = words.next().ok_or(format!("{name} has no number"))?;
            let number: usize = value.parse().map_err(|_| format!("{value}: no number"))?;
            if number > most {
                return Err(format!("{name} is at most {most}"));
            }
            *place = number;
        }
        Ok(options)
    }

    /// The number of this name, and the most that it may be.
    fn named(&mut self, name: &str) -> Result<(&mut usize, usize), String> {
        Ok(match name {
            "--seed" => (&mut self.seed, usize::MAX),
            "--loss" => (&mut self.loss, 100),
            // The slow story's link keeps order, and its script is fixed: with few
            // events no slots would ever be full.
            _ if self.slow => return Err(format!("unknown with --slow: {name}")),
            "--repeat" => (&mut self.repeat, 100),
            "--reorder" => (&mut self.reorder, 100),
            "--events" => (&mut self.events, MOST_EVENTS),
            _ => return Err(format!("unknown: {name}")),
        })
    }
}
