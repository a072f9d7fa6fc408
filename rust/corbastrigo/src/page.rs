use crate::netgroup::{map_or_none, packed, Candidate};
use crate::{AsMap, Refusal, MAX_CANDIDATES};
use corbastrigo_sys as sys;
use std::fmt;
use std::net::SocketAddr;

/// How a list of candidates spreads over groups, as lines to print. They rise by group, and each has 25 bytes: the group right-aligned in 10
/// columns, a space, its candidates in 6, a space, their per cent of all with one decimal in 6, and a line feed. An empty list has no line.
#[derive(Clone, Debug, PartialEq, Eq)]
pub struct Page {
    text: String,
}

/// A line of a page: a group and what share of the candidates it has.
#[derive(Clone, Copy, Debug, PartialEq, Eq)]
#[non_exhaustive]
pub struct Share {
    /// The group: with a map the number that its candidates are sent to, without one their prefix, by the numbering of the call.
    pub group: u64,
    /// How many of the candidates have it, at least one.
    pub candidates: usize,
    /// Their per cent of all in tenths, halves rounded up: 63 is printed as 6.3.
    pub tenths: u32,
}

impl Page {
    /// The lines as they are printed.
    pub fn as_str(&self) -> &str {
        &self.text
    }

    /// The lines' numbers. They are read off the columns, so that they are what is printed and nothing is reckoned twice.
    ///
    /// ```
    /// use corbastrigo::{page, AsMap, Refusal};
    ///
    /// let peers = ["3.4.0.1:8333", "1.2.0.1:8333", "[2001:db8::1]:8333"].map(|peer| peer.parse().unwrap());
    /// // A map that sends every address to 1.
    /// let map = AsMap::checked(vec![0, 0, 0])?;
    /// let page = page(&peers, Some(&map))?;
    /// assert_eq!(page.as_str(), "         1      3  100.0\n");
    /// let share = page.shares().next().unwrap();
    /// assert_eq!((share.group, share.candidates, share.tenths), (1, 3, 1_000));
    /// # Ok::<(), Refusal>(())
    /// ```
    pub fn shares(&self) -> impl Iterator<Item = Share> + '_ {
        self.text.as_bytes().chunks_exact(sys::PAGE_LINE_BYTES).map(|line| Share {
            group: digits(&line[..10]),
            candidates: digits(&line[11..17]) as usize,
            tenths: digits(&line[18..24]) as u32,
        })
    }

    fn answered(answer: u8, mut out: Vec<u8>, written: usize) -> Result<Self, Refusal> {
        Refusal::check(answer)?;
        out.truncate(written);
        // Digits, points, spaces and line feeds alone: there is nothing that this could lose. The copy has no room to spare.
        Ok(Page { text: String::from_utf8_lossy(&out).into_owned() })
    }
}

/// The page itself.
impl fmt::Display for Page {
    fn fmt(&self, f: &mut fmt::Formatter<'_>) -> fmt::Result {
        f.write_str(&self.text)
    }
}

/// The number of a column's digits, at most ten: spaces in front of them and the point among them count for nothing.
fn digits(column: &[u8]) -> u64 {
    column.iter().filter(|byte| byte.is_ascii_digit()).fold(0, |number, digit| 10 * number + u64::from(digit - b'0'))
}

/// What a page lends to its call: there are no more groups than candidates. One candidate too many is refused without a line.
fn room_for(packed: &[Candidate]) -> Vec<u8> {
    vec![0; packed.len().min(MAX_CANDIDATES) * sys::PAGE_LINE_BYTES]
}

/// Counts a list of candidates by group, with a map or by prefixes in the new numbering ([`netgroup()`](crate::netgroup())), and writes each
/// group's share. An [`AsMap`] was checked when it was made and is not checked again. Refusal 12 over 4,096 candidates.
///
/// ```
/// use corbastrigo::{page, Refusal};
///
/// let peers = ["3.4.0.1:8333", "1.2.0.1:8333", "[::ffff:3.4.0.2]:8333"].map(|peer| peer.parse().unwrap());
/// let page = page(&peers, None)?;
/// assert_eq!(page.as_str(), "4294967554      1   33.3\n4294968068      2   66.7\n");
/// let tenths: Vec<u32> = page.shares().map(|share| share.tenths).collect();
/// assert_eq!(tenths, [333, 667]);
/// # Ok::<(), Refusal>(())
/// ```
pub fn page(candidates: &[SocketAddr], asmap: Option<&AsMap>) -> Result<Page, Refusal> {
    let packed = packed(candidates);
    let candidates = packed.as_flattened();
    let (has_map, map) = map_or_none(asmap);
    let (mut out, mut written) = (room_for(&packed), 0);
    // SAFETY: every slice gives its own pointer and length; the output and the number are borrowed for the call and overlap nothing.
    let answer = unsafe {
        sys::corbastrigo_page_unchecked(
            candidates.as_ptr(),
            candidates.len(),
            has_map,
            map.as_ptr(),
            map.len(),
            out.as_mut_ptr(),
            out.len(),
            &mut written,
        )
    };
    Page::answered(answer, out, written)
}

/// The [`page()`] without a map by the old numbering, whose groups are those of [`prefix_group`](crate::prefix_group). Refusal 12 over 4,096
/// candidates.
///
/// ```
/// use corbastrigo::{old_prefix_page, Refusal};
///
/// let peers = ["3.4.0.1:8333", "1.2.0.1:8333", "[::ffff:3.4.0.2]:8333"].map(|peer| peer.parse().unwrap());
/// let page = old_prefix_page(&peers)?;
/// // A mapped address has 0.
/// assert_eq!(page.as_str(), "         0      1   33.3\n       258      1   33.3\n       772      1   33.3\n");
/// # Ok::<(), Refusal>(())
/// ```
pub fn old_prefix_page(candidates: &[SocketAddr]) -> Result<Page, Refusal> {
    let packed = packed(candidates);
    let candidates = packed.as_flattened();
    let (mut out, mut written) = (room_for(&packed), 0);
    // SAFETY: every slice gives its own pointer and length; the output and the number are borrowed for the call and overlap nothing.
    let answer = unsafe {
        sys::corbastrigo_old_prefix_page(candidates.as_ptr(), candidates.len(), out.as_mut_ptr(), out.len(), &mut written)
    };
    Page::answered(answer, out, written)
}
