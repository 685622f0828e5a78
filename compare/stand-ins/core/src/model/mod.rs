pub mod duration;
pub mod notation;
pub mod pitch;
pub mod score;
