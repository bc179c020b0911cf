//! Stand-in for `itertools`: `join`, which only an error message uses.

pub trait Itertools: Iterator {
    fn join(&mut self, separator: &str) -> String
    where
        Self::Item: std::fmt::Display,
    {
        let items: Vec<String> = self.map(|item| item.to_string()).collect();
        items.join(separator)
    }
}

impl<I: Iterator + ?Sized> Itertools for I {}
