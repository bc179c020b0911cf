//! A network as a line of the script that the port's program `held` reads (FORM.md): the only form in
//! which a network with a return line (document 02, K4) is given.

use crate::{
    description::{Description, Distribution, Line, Policy},
    whole_hex,
};

/// The bits of so many senders are among the fields.
const PLACES: usize = 16;

/// What is asked for a network.
#[derive(Clone, Copy, Debug, PartialEq)]
pub enum Asked {
    /// `H`: its lines.
    Lines,
    /// `D`: a digest of its lines.
    Digest,
}

/// Nothing where the line is no such one.
pub fn read(line: &str) -> Option<(Asked, Description)> {
    let (letter, rest) = line.split_once(' ')?;
    let asked = match letter {
        "H" => Asked::Lines,
        "D" => Asked::Digest,
        _ => return None,
    };
    let mut fields = Fields(rest.split(' '));
    let description = fields.description()?;
    fields.0.next().is_none().then_some((asked, description))
}

/// The fields that are left.
struct Fields<'s>(std::str::Split<'s, char>);

impl Fields<'_> {
    fn description(&mut self) -> Option<Description> {
        let line = self.line()?;
        let mut bits = vec![];
        for _ in 0..PLACES {
            bits.push(self.whole()?);
        }
        Some(Description {
            line,
            bits,
            senders: self.narrow()?,
            on: self.distribution()?,
            off: self.distribution()?,
            policy: self.policy()?,
            back: self.back()?,
            seed: self.whole()?,
            ticks: self.narrow()?,
        })
    }

    fn line(&mut self) -> Option<Line> {
        Some(Line {
            delay: self.double()?,
            rate: self.double()?,
            loss: self.double()?,
            limit: self.limit()?,
        })
    }

    fn limit(&mut self) -> Option<Option<u64>> {
        match self.0.next()? {
            "----------------" => Some(None),
            bits => whole_hex(bits).map(Some),
        }
    }

    fn distribution(&mut self) -> Option<Distribution> {
        let (kind, first, second) = (self.whole()?, self.double()?, self.double()?);
        match kind {
            0 => Some(Distribution::Always(first)),
            1 => Some(Distribution::Uniform(first, second)),
            _ => None,
        }
    }

    fn policy(&mut self) -> Option<Policy> {
        let (kind, first, most) = (self.whole()?, self.narrow()?, self.narrow()?);
        let gap = self.double()?;
        match kind {
            0 => Some(Policy::Held { window: first }),
            1 => Some(Policy::Grown { first, most }),
            2 => Some(Policy::Timed { most, gap }),
            _ => None,
        }
    }

    /// 0 or 1, and a line, which is read in both cases.
    fn back(&mut self) -> Option<Option<Line>> {
        let (there, line) = (self.whole()?, self.line()?);
        match there {
            0 => Some(None),
            1 => Some(Some(line)),
            _ => None,
        }
    }

    fn double(&mut self) -> Option<f64> {
        self.whole().map(f64::from_bits)
    }

    fn narrow(&mut self) -> Option<u32> {
        self.whole()?.try_into().ok()
    }

    fn whole(&mut self) -> Option<u64> {
        whole_hex(self.0.next()?)
    }
}
