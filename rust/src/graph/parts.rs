//! A text in parts, each of which tells how long it is.

use crate::platform::{Platforms, TargetSpec};

/// A part of the text: where it begins, and how many bytes it has.
#[derive(Clone, Copy)]
pub(super) struct Span {
    start: usize,
    len: usize,
}

impl Span {
    pub(super) fn start(self) -> usize {
        self.start
    }

    pub(super) fn end(self) -> usize {
        self.start + self.len
    }

    pub(super) fn of(self, text: &str) -> &str {
        &text[self.start..][..self.len]
    }
}

/// Reads a text in which each part tells how long it is, from a place on. The library is proved to write it so.
pub(super) struct Parts<'t> {
    text: &'t str,
    place: usize,
}

impl<'t> Parts<'t> {
    pub(super) fn at(text: &'t str, place: usize) -> Self {
        Parts { text, place }
    }

    /// Where the next part begins.
    pub(super) fn place(&self) -> usize {
        self.place
    }

    /// The byte that stands next, which is passed.
    pub(super) fn take(&mut self) -> u8 {
        let byte = self.text.as_bytes()[self.place];
        self.place += 1;
        byte
    }

    /// Whether the text stands next, which then is passed.
    pub(super) fn takes(&mut self, text: &str) -> bool {
        let stands = self.text.as_bytes()[self.place..].starts_with(text.as_bytes());
        if stands {
            self.place += text.len();
        }
        stands
    }

    /// The number in front of the mark.
    pub(super) fn number(&mut self, mark: u8) -> usize {
        let mut number = 0;
        loop {
            let byte = self.take();
            if byte == mark {
                return number;
            }
            assert!(byte.is_ascii_digit(), "a mark behind each number");
            number = 10 * number + usize::from(byte - b'0');
        }
    }

    /// A text.
    pub(super) fn field(&mut self) -> Span {
        let len = self.number(b':');
        let start = self.place;
        self.place += len;
        Span { start, len }
    }

    /// The same, as it reads.
    pub(super) fn text(&mut self) -> &'t str {
        self.field().of(self.text)
    }

    /// That part.
    pub(super) fn part(&self, part: Span) -> &'t str {
        part.of(self.text)
    }

    /// What stands from one place to the other.
    pub(super) fn between(&self, start: usize, end: usize) -> &'t str {
        &self.text[start..end]
    }

    /// A list of what the function reads.
    pub(super) fn list<T>(&mut self, mut read: impl FnMut(&mut Self) -> T) -> Vec<T> {
        // Most are empty.
        if self.takes("0;") {
            return Vec::new();
        }
        let count = self.number(b';');
        (0..count).map(|_| read(self)).collect()
    }

    /// A text, or none.
    pub(super) fn optional(&mut self) -> Option<Span> {
        (!self.takes("-")).then(|| self.field())
    }

    /// Some platforms.
    pub(super) fn platforms(&mut self) -> Platforms {
        if self.takes("*") {
            return Platforms::Always;
        }
        Platforms::Specs(self.list(|parts| TargetSpec::as_written(parts.text())))
    }

    /// Passes over a list, each item of which the function passes over, and tells how many there are.
    pub(super) fn pass_list(&mut self, pass: impl Fn(&mut Self)) -> usize {
        let count = self.number(b';');
        (0..count).for_each(|_| pass(self));
        count
    }

    /// Passes over a text.
    pub(super) fn pass(&mut self) {
        self.field();
    }

    /// Passes over a text, or none.
    pub(super) fn pass_optional(&mut self) {
        if !self.takes("-") {
            self.pass();
        }
    }

    /// Passes over some platforms.
    pub(super) fn pass_platforms(&mut self) {
        if !self.takes("*") {
            self.pass_list(Self::pass);
        }
    }
}
