//! Runs the definitions of the rules (crates/rules/specs, crates/valve_rules/specs and what they use), so that they can be
//! tested on recorded runs before anything is proved of them.
//!
//! - `syntax`: a definition file as items;
//! - `program`: names resolved, over all files that a module uses;
//! - `strict`: what is computed at once and what is delayed;
//! - `value`, `machine`: values, and how they are computed;
//! - `rules`: the calls of 01 on a state that is a value;
//! - `replay`: the replay program's format;
//! - `valves`: the valve gate's calls, and what its history says.

#![forbid(unsafe_code)]

pub mod machine;
pub mod program;
pub mod replay;
pub mod rules;
mod strict;
pub mod syntax;
pub mod value;
pub mod valves;
