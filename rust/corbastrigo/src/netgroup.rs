use crate::{AsMap, Refusal, MAX_CANDIDATES};
use corbastrigo_sys as sys;
use std::collections::HashSet;
use std::net::{IpAddr, SocketAddr};

/// A candidate as the calls take it: family 4 or 6, a zero, 16 address bytes, the port big-endian.
pub type Candidate = [u8; 20];

/// The address is one number until it is written, an IPv4 address that of its mapped form: a pick packs thousands of them, and put together
/// from single bytes each takes several times as long.
fn candidate(addr: &SocketAddr) -> Candidate {
    let (family, ip) = match addr {
        SocketAddr::V4(v4) => (4, 0xffff_0000_0000 | u128::from(v4.ip().to_bits())),
        SocketAddr::V6(v6) => (6, v6.ip().to_bits()),
    };
    let mut bytes = [0; 20];
    bytes[0] = family;
    bytes[2..18].copy_from_slice(&ip.to_be_bytes());
    bytes[18..].copy_from_slice(&addr.port().to_be_bytes());
    bytes
}

/// A list as the calls take it. One past the limit is enough for the refusal.
pub(crate) fn packed(list: &[SocketAddr]) -> Vec<Candidate> {
    list.iter().take(MAX_CANDIDATES + 1).map(candidate).collect()
}

/// The map as the calls take it: whether there is one, and its bytes.
pub(crate) fn map_or_none(asmap: Option<&AsMap>) -> (u8, &[u8]) {
    match asmap {
        Some(map) => (1, map.as_bytes()),
        None => (0, &[]),
    }
}

/// The group of an address: with a map the number that it is sent to, without one its prefix by the new numbering. An [`AsMap`] was checked
/// when it was made and is not checked again.
///
/// By the new numbering an IPv4 address a.b.c.d has the group [`IPV4_GROUPS`](crate::IPV4_GROUPS) + 256 * a + b, also where a dual-stack
/// socket reports it as the mapped IPv6 address ::ffff:a.b.c.d. Every other IPv6 address has its first four bytes as a number, which is less,
/// so that IPv4 never shares a group with IPv6. Groups that were stored by the old numbering ([`prefix_group`]) are not to be mixed with these.
///
/// ```
/// use corbastrigo::{netgroup, AsMap, Refusal, IPV4_GROUPS};
///
/// let [peer, mapped, other] = ["3.4.5.6:8333", "[::ffff:3.4.7.8]:8333", "[0:304::1]:8333"].map(|peer| peer.parse().unwrap());
/// assert_eq!(netgroup(peer, None), IPV4_GROUPS + 3 * 256 + 4);
/// assert_eq!((netgroup(mapped, None), netgroup(other, None)), (netgroup(peer, None), 0x0304));
/// // A map that sends every address to 1.
/// let map = AsMap::checked(vec![0, 0, 0])?;
/// assert_eq!(netgroup(peer, Some(&map)), 1);
/// # Ok::<(), Refusal>(())
/// ```
pub fn netgroup(addr: SocketAddr, asmap: Option<&AsMap>) -> u64 {
    let bytes = candidate(&addr);
    let (has_map, map) = map_or_none(asmap);
    let mut group = 0;
    // The candidate is well formed and the map within the limit, so nothing is left to refuse.
    // SAFETY: candidate and map give their own pointers and lengths; the number is borrowed for the call and is nobody else's.
    unsafe { sys::corbastrigo_netgroup_unchecked(bytes.as_ptr(), bytes.len(), has_map, map.as_ptr(), map.len(), &mut group) };
    group
}

/// The group without a map by the old numbering: the first two bytes of an IPv4 address, the first four of an IPv6 address, so 0 of one that
/// is mapped. It is there for nodes that stored such groups; [`netgroup()`] goes by the new numbering, and [`old_prefix_pick`] and
/// [`old_prefix_page`](crate::old_prefix_page) by this one.
///
/// ```
/// use corbastrigo::prefix_group;
/// use std::net::{Ipv4Addr, Ipv6Addr};
///
/// let four = Ipv4Addr::new(3, 4, 5, 6);
/// assert_eq!(prefix_group(four.into()), 0x0304);
/// assert_eq!(prefix_group(Ipv6Addr::new(0x2001, 0xdb8, 0, 0, 0, 0, 0, 1).into()), 0x2001_0db8);
/// // What the new numbering mends: an IPv6 prefix has the same number, and every mapped address has 0.
/// assert_eq!(prefix_group(Ipv6Addr::new(0, 0x304, 0, 0, 0, 0, 0, 1).into()), 0x0304);
/// assert_eq!(prefix_group(four.to_ipv6_mapped().into()), 0);
/// ```
pub fn prefix_group(ip: IpAddr) -> u64 {
    let bytes = candidate(&SocketAddr::new(ip, 0));
    let mut group = 0;
    // The candidate is well formed, so nothing is left to refuse.
    // SAFETY: the candidate gives its own pointer and length; the number is borrowed for the call and is nobody else's.
    unsafe { sys::corbastrigo_prefix_group(bytes.as_ptr(), bytes.len(), &mut group) };
    group
}

/// A scan of the occupied groups for one group.
#[derive(Clone, Copy, Debug, PartialEq, Eq)]
#[non_exhaustive]
pub struct Scan {
    /// The first hit's place, from 0; none where the group is not occupied.
    pub place: Option<usize>,
    /// How many groups were read: that place plus one, or all.
    pub read: usize,
}

/// Looks for a group among the occupied ones, in their order, and ends at the first hit. Refusal 12 over 4,096 occupied groups.
///
/// ```
/// use corbastrigo::{scan_occupied, Refusal};
///
/// let occupied = [258, 772, 2056, 772];
/// let scan = scan_occupied(772, &occupied)?;
/// assert_eq!((scan.place, scan.read), (Some(1), 2));
/// // To say of a group that it is not occupied takes all of them.
/// let scan = scan_occupied(2057, &occupied)?;
/// assert_eq!((scan.place, scan.read), (None, 4));
/// # Ok::<(), Refusal>(())
/// ```
pub fn scan_occupied(group: u64, occupied: &[u64]) -> Result<Scan, Refusal> {
    let (mut found, mut place, mut read) = (0, 0, 0);
    // SAFETY: the slice gives its own pointer and length; the three numbers are borrowed for the call and are nobody else's.
    let answer =
        unsafe { sys::corbastrigo_scan_occupied(group, occupied.as_ptr(), occupied.len(), &mut found, &mut place, &mut read) };
    Refusal::check(answer)?;
    Ok(Scan { place: (found != 0).then_some(place), read })
}

/// A pick of peers.
#[derive(Clone, Debug, PartialEq, Eq)]
#[non_exhaustive]
pub struct Pick {
    /// The places of the picks in the ranked list, in the order in which they were taken.
    pub places: Vec<u16>,
    /// The groups of the first pass's picks, which stand first.
    pub groups: Vec<u64>,
    /// The candidates whose group was looked up.
    pub examined: usize,
    /// The instructions of their walks, 0 without a map.
    pub instructions: u64,
}

impl Pick {
    /// The places that the first pass took, each for a group that was neither occupied nor taken: that at the same place of `groups`.
    pub fn first_pass(&self) -> &[u16] {
        self.passes().0
    }

    /// The places that the second pass filled up with, whatever their groups.
    pub fn second_pass(&self) -> &[u16] {
        self.passes().1
    }

    fn passes(&self) -> (&[u16], &[u16]) {
        // The fields can be changed from outside, so the one may be longer than the other.
        self.places.split_at(self.groups.len().min(self.places.len()))
    }
}

/// What a pick lends to its call, and what it has of it afterwards.
struct Lent {
    candidates: Vec<Candidate>,
    occupied: Vec<u64>,
    places: Vec<u16>,
    groups: Vec<u64>,
    total: usize,
    first: usize,
    examined: usize,
    instructions: u64,
}

impl Lent {
    fn of(ranked: &[SocketAddr], max: usize, occupied_groups: &HashSet<u64>) -> Self {
        let room = max.min(ranked.len()).min(MAX_CANDIDATES);
        Lent {
            candidates: packed(ranked),
            occupied: occupied_groups.iter().copied().take(MAX_CANDIDATES + 1).collect(),
            places: vec![0; room],
            groups: vec![0; room],
            total: 0,
            first: 0,
            examined: 0,
            instructions: 0,
        }
    }

    fn answered(mut self, answer: u8) -> Result<Pick, Refusal> {
        Refusal::check(answer)?;
        self.places.truncate(self.total);
        self.groups.truncate(self.first);
        Ok(Pick { places: self.places, groups: self.groups, examined: self.examined, instructions: self.instructions })
    }
}

/// Picks up to `max` places of a ranked list: first, in order, each whose group is neither occupied nor taken; then, in order, those
/// unequal to every pick. The groups are those of [`netgroup()`], without a map by the new numbering, and so are those that it takes for
/// occupied. Refusal 12 over 4,096 candidates or occupied groups.
///
/// ```
/// use corbastrigo::{pick, Refusal, IPV4_GROUPS};
/// use std::collections::HashSet;
///
/// let ranked = ["3.4.0.1:8333", "[::ffff:3.4.0.2]:8333", "1.2.0.1:8333"].map(|peer| peer.parse().unwrap());
/// let picked = pick(&ranked, 3, &HashSet::new(), None)?;
/// // The second has the group of the first, so it is taken last, to fill up.
/// assert_eq!((picked.first_pass(), picked.second_pass()), (&[0, 2][..], &[1][..]));
/// assert_eq!(picked.groups, [IPV4_GROUPS + 0x0304, IPV4_GROUPS + 0x0102]);
/// # Ok::<(), Refusal>(())
/// ```
pub fn pick(ranked: &[SocketAddr], max: usize, occupied_groups: &HashSet<u64>, asmap: Option<&AsMap>) -> Result<Pick, Refusal> {
    let mut lent = Lent::of(ranked, max, occupied_groups);
    let candidates = lent.candidates.as_flattened();
    let (has_map, map) = map_or_none(asmap);
    // SAFETY: every slice gives its own pointer and length; the two outputs and the four numbers are borrowed for the call and overlap
    // nothing.
    let answer = unsafe {
        sys::corbastrigo_select_diverse_unchecked(
            candidates.as_ptr(),
            candidates.len(),
            lent.occupied.as_ptr(),
            lent.occupied.len(),
            max,
            has_map,
            map.as_ptr(),
            map.len(),
            lent.places.as_mut_ptr(),
            lent.places.len(),
            lent.groups.as_mut_ptr(),
            lent.groups.len(),
            &mut lent.total,
            &mut lent.first,
            &mut lent.examined,
            &mut lent.instructions,
        )
    };
    lent.answered(answer)
}

/// The [`pick`] without a map by the old numbering, for a node whose occupied groups are old ones: those of [`prefix_group`]. Its groups are
/// old ones too. Refusal 12 over 4,096 candidates or occupied groups.
///
/// ```
/// use corbastrigo::{old_prefix_pick, pick, Refusal};
/// use std::collections::HashSet;
///
/// let ranked = ["1.2.0.1:8333", "[0:102::1]:8333", "[::ffff:3.4.0.1]:8333"].map(|peer| peer.parse().unwrap());
/// let old = old_prefix_pick(&ranked, 3, &HashSet::new())?;
/// // By the old numbering the second has the group of the first.
/// assert_eq!((old.first_pass(), &old.groups[..]), (&[0, 2][..], &[0x0102, 0][..]));
/// assert_eq!(pick(&ranked, 3, &HashSet::new(), None)?.first_pass(), [0, 1, 2]);
/// # Ok::<(), Refusal>(())
/// ```
pub fn old_prefix_pick(ranked: &[SocketAddr], max: usize, occupied_groups: &HashSet<u64>) -> Result<Pick, Refusal> {
    let mut lent = Lent::of(ranked, max, occupied_groups);
    let candidates = lent.candidates.as_flattened();
    // SAFETY: every slice gives its own pointer and length; the two outputs and the four numbers are borrowed for the call and overlap
    // nothing.
    let answer = unsafe {
        sys::corbastrigo_old_prefix_pick(
            candidates.as_ptr(),
            candidates.len(),
            lent.occupied.as_ptr(),
            lent.occupied.len(),
            max,
            lent.places.as_mut_ptr(),
            lent.places.len(),
            lent.groups.as_mut_ptr(),
            lent.groups.len(),
            &mut lent.total,
            &mut lent.first,
            &mut lent.examined,
            &mut lent.instructions,
        )
    };
    lent.answered(answer)
}

/// The picked addresses of [`pick`], by the map's groups or, without a map, by prefixes in the new numbering.
///
/// ```
/// use corbastrigo::{select_diverse, Refusal};
/// use std::collections::HashSet;
///
/// let ranked = ["3.4.0.1:8333", "3.4.0.2:8333", "1.2.0.1:8333"].map(|peer| peer.parse().unwrap());
/// assert_eq!(select_diverse(&ranked, 2, &HashSet::new(), None)?, [ranked[0], ranked[2]]);
/// # Ok::<(), Refusal>(())
/// ```
pub fn select_diverse(
    ranked: &[SocketAddr],
    max: usize,
    occupied_groups: &HashSet<u64>,
    asmap: Option<&AsMap>,
) -> Result<Vec<SocketAddr>, Refusal> {
    let picked = pick(ranked, max, occupied_groups, asmap)?;
    Ok(picked.places.iter().map(|&place| ranked[usize::from(place)]).collect())
}

#[cfg(test)]
mod tests {
    use super::*;

    #[test]
    fn a_candidate_is_its_family_a_zero_the_address_and_the_port() {
        let of = |peer: &str| candidate(&peer.parse().expect("a peer"));
        let four = [4, 0, 0, 0, 0, 0, 0, 0, 0, 0, 0, 0, 0xff, 0xff, 1, 2, 3, 4, 0x20, 0x8d];
        assert_eq!(of("1.2.3.4:8333"), four);
        let mut mapped = four;
        mapped[0] = 6;
        assert_eq!(of("[::ffff:1.2.3.4]:8333"), mapped);
        let six = [6, 0, 0x20, 1, 0xd, 0xb8, 5, 6, 7, 8, 9, 10, 11, 12, 13, 14, 15, 16, 0xff, 0xfe];
        assert_eq!(of("[2001:db8:506:708:90a:b0c:d0e:f10]:65534"), six);
    }
}
