//! Seeded cases for the judge and the judged.

mod damage;
mod edge;
mod exact;
mod growth;
mod hurt;
mod macros;
mod nested;
mod place;
mod plain;
mod race;
mod rng;
mod scope;
pub mod short;
pub mod sweep;
mod tables;

pub use damage::seal;
pub use exact::both_sides;
pub use nested::{nested_case, nested_sides, NestedKind, NESTED_KINDS};
pub use place::{along, STEPS, TAGS};
pub use rng::Rng;
pub use tables::around_tables;

use plain::Size;

/// What a case was made to try.
#[derive(Debug, Clone, Copy, PartialEq, Eq, Hash, PartialOrd, Ord)]
pub enum Kind {
    Small,
    Medium,
    Large,
    Scope,
    Macros,
    Place,
    Levels,
    DeepUnknown,
    Definitions,
    LiftedDefinitions,
    BookBytes,
    ResultBytes,
    LiftedNames,
    LongBases,
    Growth,
    Race,
    Hurt,
    OddNames,
    Damaged,
}

/// Each kind with its share of 1,000 cases.
pub const KINDS: [(Kind, usize); 19] = [
    (Kind::Small, 170),
    (Kind::Medium, 120),
    (Kind::Large, 30),
    (Kind::Scope, 150),
    (Kind::Macros, 60),
    (Kind::Place, 90),
    (Kind::Levels, 30),
    (Kind::DeepUnknown, 10),
    (Kind::Definitions, 8),
    (Kind::LiftedDefinitions, 12),
    (Kind::BookBytes, 25),
    (Kind::ResultBytes, 25),
    (Kind::LiftedNames, 35),
    (Kind::LongBases, 10),
    (Kind::Growth, 35),
    (Kind::Race, 40),
    (Kind::Hurt, 5),
    (Kind::OddNames, 45),
    (Kind::Damaged, 100),
];

pub struct Case {
    pub kind: Kind,
    pub bytes: Vec<u8>,
}

/// Case `number` of a seed.
pub fn case(seed: u64, number: u64) -> Case {
    let mut rng = Rng::of_case(seed, number);
    let weights: Vec<usize> = KINDS.iter().map(|(_, weight)| *weight).collect();
    let kind = KINDS[rng.weighted(&weights)].0;
    let bytes = make(kind, &mut rng);
    Case { kind, bytes }
}

fn make(kind: Kind, rng: &mut Rng) -> Vec<u8> {
    let book = match kind {
        Kind::DeepUnknown => return damage::deep_and_unknown(rng),
        Kind::BookBytes => return edge::book_bytes(rng),
        Kind::ResultBytes => return edge::result_bytes(rng),
        Kind::OddNames => return damage::names(rng),
        Kind::Damaged => return damage::copy(rng),
        Kind::Small => plain::book(rng, Size::Small),
        Kind::Medium => plain::book(rng, Size::Medium),
        Kind::Large => plain::book(rng, Size::Large),
        Kind::Scope => scope::random(rng),
        Kind::Macros => macros::random(rng),
        Kind::Place => place::random(rng),
        Kind::Levels => edge::levels(rng),
        Kind::Definitions => edge::definitions(rng),
        Kind::LiftedDefinitions => edge::lifted_definitions(rng),
        Kind::LiftedNames => edge::lifted_names(rng),
        Kind::LongBases => edge::long_bases(rng),
        Kind::Growth => growth::random(rng),
        Kind::Race => race::random(rng),
        Kind::Hurt => hurt::random(rng),
    };
    edge::written(&book)
}
