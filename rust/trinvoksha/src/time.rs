//! The two kinds of time, which are not mixed up by accident.

/// A tick on the clock. Slot t runs from tick t to tick t + 1.
#[repr(C)]
#[derive(Clone, Copy, PartialEq, Eq, PartialOrd, Ord, Hash, Debug, Default)]
pub struct Instant(pub u64);

/// A number of ticks.
#[repr(C)]
#[derive(Clone, Copy, PartialEq, Eq, PartialOrd, Ord, Hash, Debug, Default)]
pub struct Span(pub u64);

impl Instant {
    /// The instant that lies the span after this one; the largest instant where that does not fit a word.
    #[must_use]
    pub fn plus(self, span: Span) -> Instant {
        Instant(self.0.saturating_add(span.0))
    }
}
