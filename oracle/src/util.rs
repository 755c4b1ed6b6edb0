original!("util_difficulty.rs");
original!("util_float_ext.rs");
original!("util_hint.rs");
original!("util_ruleset_ext.rs");

pub use crate::stub::Pos;
