// The contenders by name, each fresh.
use crate::contender::Driven;
use crate::workload::Order;
use crate::{per_query, reevaluate, shared};

#[derive(Clone, Copy, PartialEq, Debug)]
pub enum Name {
    Library,
    LibraryAscending,
    Reevaluate,
    PerQuery,
    PlainShared,
    PlainRemainders,
}

impl Name {
    pub const ALL: [Name; 6] = [
        Name::Library,
        Name::LibraryAscending,
        Name::Reevaluate,
        Name::PerQuery,
        Name::PlainShared,
        Name::PlainRemainders,
    ];

    pub fn text(self) -> &'static str {
        match self {
            Name::Library => "library",
            Name::LibraryAscending => "library_ascending",
            Name::Reevaluate => "reevaluate",
            Name::PerQuery => "per_query",
            Name::PlainShared => "plain_shared",
            Name::PlainRemainders => "plain_remainders",
        }
    }

    // The plain contenders do not look at the numbers, so the order makes a difference to the library alone.
    pub fn order(self) -> Order {
        match self {
            Name::LibraryAscending => Order::Ascending,
            _ => Order::Mixed,
        }
    }

    // None for the library where it is left out.
    pub fn fresh(self) -> Option<Box<dyn Driven>> {
        match self {
            Name::Library | Name::LibraryAscending => library(),
            Name::Reevaluate => Some(Box::new(reevaluate::Reevaluate::new())),
            Name::PerQuery => Some(Box::new(per_query::PerQuery::new())),
            Name::PlainShared => Some(Box::new(shared::Shared::<false>::new())),
            Name::PlainRemainders => Some(Box::new(shared::Shared::<true>::new())),
        }
    }
}

#[cfg(not(without_library))]
fn library() -> Option<Box<dyn Driven>> {
    Some(Box::new(crate::library::Library::new()))
}

#[cfg(without_library)]
fn library() -> Option<Box<dyn Driven>> {
    None
}
