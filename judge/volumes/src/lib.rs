//! Well-formed volumes made directly, and a plain reader of them: what the comparisons and the timings start from.
//!
//! [`random`] makes a volume from a [`Wish`] and a seeded [`Rng`]: a tree of directories, files and devices with names, sizes and
//! chains at random. [`Tree`] and its `lay` make one with the entries that the caller wants. Both give a [`Volume`]: the image, where
//! its parts lie, and the list of its entries, so that calls can be aimed at them. [`entries`] reads that list off any well-formed image.
//! They have version 2 and 512-byte blocks where no [`Form`] is given; [`blank`] and `move_block` make cards that break a rule.
//!
//! ```
//! use volumes::{entries, random, Geometry, Rng, Size, Style, Tree, Wish, ROOT};
//!
//! let wish = Wish { k: 8, size: Size::Usual, entries: 60, depth: 16, free: Some(3) };
//! let made = random(wish, &mut Rng::new(1));
//! assert_eq!(made.entries, entries(&made.image, 8));
//! assert_eq!(made.geometry.free_in_reach(&made.image).count(), 3);
//!
//! let mut tree = Tree::new();
//! let old = tree.dir(ROOT, b"old", 1_700_000_060);
//! tree.file(old, b"m1", 1_700_000_000, 3);
//! let small = tree.lay(Geometry::new(8, 128).unwrap(), Style::PLAIN, &mut Rng::new(1)).unwrap();
//! assert_eq!(small.entries[1].path, b"/old/m1");
//! ```
mod cards;
mod geometry;
mod random;
mod rng;
mod tree;
mod walk;

pub use cards::blank;
pub use geometry::{Form, Geometry, BLOCK_SIZE, CAPACITY};
pub use random::{draw_accented, draw_name, random, random_of, Size, Wish};
pub use rng::Rng;
pub use tree::{NodeId, Order, Style, Tree, Volume, ROOT};
pub use walk::{chain, entries, entries_of, fill_of, names_by_block, Entry, Kind, HEADER};
