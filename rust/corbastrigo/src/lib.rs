//! Bitcoin's address map (asmap), maps built from prefixes, peer groups, address filters and loads: a safe crate over the calls of
//! libcorbastrigo.a, each of which is proved to meet its contract for every input.
//!
//! The names that a node calls are those of rbitcoin: [`AsMap`], [`netgroup()`], [`select_diverse`], [`prefix_group`],
//! [`clearnet_unroutable`], [`addrv2_skip_relay`]. Beside them stands what is new: [`sanity_check`] with its reason, count and depth,
//! [`sanity_check_stop`] with the bit at which it stops, [`interpret`] with its kind of end and counts, [`list`] with every prefix that a
//! map tells apart, [`compare`] with every prefix that two maps send elsewhere, [`build`] with the map of a list of prefixes, [`unpack`],
//! [`pack`], the [`codes`], [`scan_occupied`] with the place of a group among the occupied ones, [`page()`] with the share of each group in a
//! list of candidates, and [`load`] with a map to measure with that everyone can make again from a seed.
//!
//! A node of IPv4 alone may keep a map of four-byte addresses, without the 96 bits that stand in front of them elsewhere: that is an
//! [`AsMap4`]. Check, walk, unpack, list and compare have a form for the bytes of one whose name ends in `_bits` and which takes the width,
//! 32 or 128; [`build`] always takes it. A map is walked at the width at which it was checked, and at no other; groups, picks and pages are
//! by an [`AsMap`].
//!
//! Without a map a group is the prefix of an address, by a numbering that is not rbitcoin's: IPv4, mapped or not, has its groups from
//! [`IPV4_GROUPS`] on, and IPv6 all below ([`netgroup()`]). rbitcoin's is the old numbering. [`prefix_group`], [`old_prefix_pick`] and
//! [`old_prefix_page`] keep it for nodes that stored such groups, until these are made again.
//!
//! Nothing here panics or allocates more than a fixed multiple of what it is given. Every call answers, or refuses with a [`Refusal`]
//! and has written nothing.
//!
//! ```
//! use corbastrigo::{select_diverse, AsMap};
//! use std::collections::HashSet;
//!
//! fn peers(path: &str) -> Result<Vec<std::net::SocketAddr>, Box<dyn std::error::Error>> {
//!     let map = AsMap::open(path)?;
//!     let ranked = ["1.2.3.4:8333".parse()?, "[2001:db8::1]:8333".parse()?];
//!     Ok(select_diverse(&ranked, 8, &HashSet::new(), Some(&map))?)
//! }
//! # assert!(peers("/nowhere/node.asmap").is_err());
//! ```
//!
//! The feature `digest`, which is on unless it is turned off, adds `digest` and `digest_hex8` of both kinds of map with the crate `sha2`.
//! Without it no crate of others is used.
//!
//! Two things to know before reading numbers. The number 0 is not "unmapped": a walk that aborts has it, and so has one that differs
//! before it met a DEFAULT; [`Walk::end`] tells, and [`End::is_abort`]. And some addresses that come out right say nothing of a map: no
//! map that [`sanity_check`] accepts can abort a walk by 16 bytes, and nothing is promised of any other.
#![deny(missing_docs)]
#![deny(clippy::undocumented_unsafe_blocks)]

mod accepted;
mod builds;
mod changes;
pub mod codes;
mod loads;
mod map;
mod memory;
mod netaddr;
mod netgroup;
mod open;
mod page;
mod prefixes;
mod records;
mod refusal;

pub use accepted::{AsMap, AsMap4};
pub use builds::{build, build_into, refused_record};
pub use changes::{changes, compare, compare_bits, compare_bytes, compare_bytes_bits, compare_into, compare_into_bits};
pub use changes::{first_change, first_change_bits, Change, CompareError, CHANGE_BYTES};
pub use loads::{load, load_address, load_into, Generator, LOAD_BYTES};
pub use map::{
    interpret, interpret_bits, ip16_for_lookup, sanity_check, sanity_check_bits, sanity_check_stop, sanity_check_stop_bits,
};
pub use map::{Check, End, Stop, Walk};
pub use netaddr::{addrv2_skip_relay, clearnet_unroutable};
pub use netgroup::{netgroup, old_prefix_pick, pick, prefix_group, scan_occupied, select_diverse, Candidate, Pick, Scan};
pub use open::OpenError;
pub use page::{old_prefix_page, page, Page, Share};
pub use prefixes::{list, list_bits, list_bytes, list_bytes_bits, list_into, list_into_bits, prefixes, Prefix, PREFIX_BYTES};
pub use records::{instructions, pack, pack_into, unpack, unpack_bits, unpack_into, unpack_into_bits, Instruction, RECORD_BYTES};
pub use refusal::Refusal;

/// The most bytes of a map; one more is refused, 1.
pub const MAX_MAP_BYTES: usize = 16_777_216;

/// The most candidates of a pick or a page, and the most occupied groups; one more is refused, 12.
pub const MAX_CANDIDATES: usize = 4_096;

/// The first group of IPv4 without a map, by the new numbering; 256 * a + b more is the group of a.b.c.d, and the groups of IPv6 are all below.
pub const IPV4_GROUPS: u64 = corbastrigo_sys::IPV4_GROUPS;

/// The most pairs of a load; one more is refused, 20.
pub const MAX_PAIRS: usize = corbastrigo_sys::MAX_PAIRS;

/// The page's code, as a test.
#[cfg(all(doctest, feature = "digest"))]
#[doc = include_str!("../../../docs/SWITCHING.md")]
struct Switching;
