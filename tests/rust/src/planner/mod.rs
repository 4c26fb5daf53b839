//! The second planner: document 01 and requests 2026-01 to 2026-04 written down once more, for clarity and not for speed. It
//! shares nothing with the product.

pub mod admission;
pub mod astray;
pub mod book;
pub mod capacity;
pub mod conditions;
pub mod deadline_notes;
pub mod desk;
pub mod frames;
pub mod growing;
pub mod host;
pub mod import;
pub mod import_notes;
pub mod library;
pub mod machine;
pub mod orders;
pub mod power;
pub mod refusal;
pub mod slack;
pub mod turns;
pub mod turns_notes;
