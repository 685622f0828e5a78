//! The part of the model that the kern reader uses: the published duration, notation and pitch, and stand-ins for the rest.
pub mod model;
pub use model::duration::*;
pub use model::notation::*;
pub use model::pitch::*;
pub use model::score::*;
