pub mod general {
    pub use crate::stub::GameMode;
}

pub mod hit_objects {
    pub use crate::stub::Curve;
}
