//! What is tried: the product, and copies of it in ordinary Rust with a slip planted.

use simulator::{Call, Figures, PlaceFigures};
use trinvoksha::{Instant, Place, Span, Table};

/// What a call hands back: the number, the place named and the table.
pub struct Said {
    pub number: u64,
    pub place: u64,
    pub table: Figures,
}

pub trait Engine {
    fn set_up(&self, policy: u64) -> Said;
    fn is_sound(&self, table: &Figures) -> bool;
    fn call(&self, table: &Figures, call: &Call, record: &mut [u8]) -> Said;
}

pub const IDLE: u64 = 255;

pub fn table_of(f: &Figures) -> Table {
    let place = |p: &PlaceFigures| Place {
        opened: p.opened,
        level: p.level,
        cap: Span(p.cap),
        gap: Span(p.gap),
        next: Instant(p.next),
        live: p.live,
        budget: Span(p.budget),
        remaining: Span(p.remaining),
        deadline: Instant(p.deadline),
        ending: p.ending,
        total: Span(p.total),
    };
    Table { policy: f.policy, now: Instant(f.now), idle: Span(f.idle), places: std::array::from_fn(|i| place(&f.places[i])) }
}

pub fn figures_of(t: &Table) -> Figures {
    let place = |p: &Place| PlaceFigures {
        opened: p.opened,
        level: p.level,
        cap: p.cap.0,
        gap: p.gap.0,
        next: p.next.0,
        live: p.live,
        budget: p.budget.0,
        remaining: p.remaining.0,
        deadline: p.deadline.0,
        ending: p.ending,
        total: p.total.0,
    };
    Figures { policy: t.policy, now: t.now.0, idle: t.idle.0, places: std::array::from_fn(|i| place(&t.places[i])) }
}

/// The proved scheduler.
pub struct Product;

impl Engine for Product {
    fn set_up(&self, policy: u64) -> Said {
        let a = Table::set_up(policy);
        Said { number: a.number, place: IDLE, table: figures_of(&a.table) }
    }

    fn is_sound(&self, table: &Figures) -> bool {
        table_of(table).is_sound()
    }

    fn call(&self, table: &Figures, call: &Call, record: &mut [u8]) -> Said {
        let t = table_of(table);
        let answer = match *call {
            Call::Open { place, level, cap, gap } => t.open(place, level, Span(cap), Span(gap)),
            Call::Close { place } => t.close(place),
            Call::Arrive { place, budget, away } => t.arrive(place, Span(budget), Span(away)),
            Call::Depart { place } => t.depart(place),
            Call::Advance { n, start } => t.advance(Span(n), record, start),
            Call::Elect => {
                let choice = t.election();
                return Said { number: choice.number, place: choice.place, table: *table };
            }
            Call::Slot => {
                let turn = t.slot();
                return Said { number: turn.number, place: turn.place, table: figures_of(&turn.table) };
            }
        };
        Said { number: answer.number, place: IDLE, table: figures_of(&answer.table) }
    }
}

/// An engine over a module that has the calls in ordinary Rust, on a `&mut` table.
#[macro_export]
macro_rules! ordinary_engine {
    ($name:ident, $module:path) => {
        pub struct $name;

        impl $crate::engine::Engine for $name {
            fn set_up(&self, policy: u64) -> $crate::engine::Said {
                use $module as ordinary;
                let (number, table) = ordinary::set_up(policy);
                $crate::engine::Said { number, place: $crate::engine::IDLE, table: $crate::engine::figures_of(&table) }
            }

            fn is_sound(&self, table: &simulator::Figures) -> bool {
                use $module as ordinary;
                ordinary::is_sound(&$crate::engine::table_of(table))
            }

            fn call(&self, table: &simulator::Figures, call: &simulator::Call, record: &mut [u8]) -> $crate::engine::Said {
                use simulator::Call;
                use trinvoksha::Span;
                use $module as ordinary;
                let mut t = $crate::engine::table_of(table);
                let (number, place) = match *call {
                    Call::Open { place, level, cap, gap } => (ordinary::open(&mut t, place, level, Span(cap), Span(gap)), 255),
                    Call::Close { place } => (ordinary::close(&mut t, place), 255),
                    Call::Arrive { place, budget, away } => (ordinary::arrive(&mut t, place, Span(budget), Span(away)), 255),
                    Call::Depart { place } => (ordinary::depart(&mut t, place), 255),
                    Call::Advance { n, start } => (ordinary::advance(&mut t, Span(n), record, start), 255),
                    Call::Elect => ordinary::election(&t),
                    Call::Slot => ordinary::slot(&mut t),
                };
                $crate::engine::Said { number, place, table: $crate::engine::figures_of(&t) }
            }
        }
    };
}
