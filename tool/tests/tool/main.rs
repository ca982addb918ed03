//! The real binary on real files: every command, every refusal's words and number, damage of each kind, and a kill at every
//! system call.
mod commands;
mod explain;
mod formats;
mod killed;
mod large_blocks;
mod objects;
mod old_cards;
mod paths;
mod readme;
mod refusals;
mod sharing;
mod support;
mod terminal;
