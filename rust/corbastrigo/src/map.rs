use crate::Refusal;
use corbastrigo_sys as sys;
use std::net::IpAddr;

/// What the check says of a map that it accepts.
#[derive(Clone, Copy, Debug, PartialEq, Eq)]
#[non_exhaustive]
pub struct Check {
    /// How many instructions the map has.
    pub count: u32,
    /// How many jumps were open at most.
    pub depth: u8,
}

/// Whether a map is sane, and the reason, 1 to 10 or 19, where it is not.
///
/// ```
/// use corbastrigo::{sanity_check, Refusal};
///
/// let check = sanity_check(&[0, 0, 0])?;
/// assert_eq!((check.count, check.depth), (1, 0));
/// assert_eq!(sanity_check(&[0, 0, 2]), Err(Refusal::Padding));
/// # Ok::<(), Refusal>(())
/// ```
pub fn sanity_check(map: &[u8]) -> Result<Check, Refusal> {
    // SAFETY: the slice gives its own pointer and length; the two numbers are borrowed for the call and are nobody else's.
    checked(|count, depth| unsafe { sys::corbastrigo_sanity_check(map.as_ptr(), map.len(), count, depth) })
}

/// [`sanity_check`] over addresses of `width` bits, 32 or 128: any other width is refused, 18, before the map is looked at. At 128 the
/// answer is that of [`sanity_check`]. A map that is accepted at 32 is accepted at 128 too, with the same count and depth, but the walks
/// there are by other addresses.
///
/// ```
/// use corbastrigo::{pack, sanity_check, sanity_check_bits, Instruction, Refusal};
///
/// // Four MATCHes of a byte and one of a bit, then a RETURN: 33 address bits.
/// let mut place = 0;
/// let mut records = Vec::new();
/// for (opcode, operand, size) in [(2, 256, 18); 4].into_iter().chain([(2, 2, 5), (0, 1, 17)]) {
///     records.extend(Instruction { opcode, operand, place, size }.record());
///     place += size;
/// }
/// let map = pack(&records)?;
/// assert_eq!(sanity_check_bits(&map, 32), Err(Refusal::NoBits));
/// assert_eq!(sanity_check_bits(&map, 128), sanity_check(&map));
/// assert_eq!(sanity_check(&map)?.count, 6);
/// assert_eq!(sanity_check_bits(&map, 33), Err(Refusal::Width));
/// # Ok::<(), Refusal>(())
/// ```
pub fn sanity_check_bits(map: &[u8], width: u32) -> Result<Check, Refusal> {
    // SAFETY: as in `sanity_check`.
    checked(|count, depth| unsafe { sys::corbastrigo_sanity_check_bits(map.as_ptr(), map.len(), width, count, depth) })
}

/// What a call of the check says, which is handed the two numbers to write.
fn checked(call: impl FnOnce(&mut u32, &mut u8) -> u8) -> Result<Check, Refusal> {
    let mut check = Check { count: 0, depth: 0 };
    Refusal::check(call(&mut check.count, &mut check.depth))?;
    Ok(check)
}

/// Where the check of a map stops.
#[derive(Clone, Copy, Debug, PartialEq, Eq)]
#[non_exhaustive]
pub struct Stop {
    /// Why the check refuses the map, 2 to 10 or 19; none where it accepts.
    pub reason: Option<Refusal>,
    /// The bit of the map at which the check stops: the first of the instruction at which it accepts or refuses, or the number of the map's
    /// bits where the map ends before one. Its byte is `place / 8`, and in it the bits run from the lowest upward.
    pub place: usize,
}

/// Where the check of a map stops, and why: for whoever has to say where in a map the fault was met. Refusal 1.
///
/// ```
/// use corbastrigo::{sanity_check_stop, Refusal};
///
/// // Two MATCHes of one bit: the second is refused, at bit 5.
/// let stop = sanity_check_stop(&[0x63, 0])?;
/// assert_eq!((stop.reason, stop.place), (Some(Refusal::ShortMatches), 5));
/// # Ok::<(), Refusal>(())
/// ```
pub fn sanity_check_stop(map: &[u8]) -> Result<Stop, Refusal> {
    // SAFETY: the slice gives its own pointer and length; the two numbers are borrowed for the call and are nobody else's.
    stopped(|reason, place| unsafe { sys::corbastrigo_sanity_check_stop(map.as_ptr(), map.len(), reason, place) })
}

/// [`sanity_check_stop`] over addresses of `width` bits, 32 or 128. Refusals 18 and 1.
///
/// ```
/// use corbastrigo::{sanity_check_stop_bits, Refusal};
///
/// assert_eq!(sanity_check_stop_bits(&[0x63, 0], 32)?.place, 5);
/// assert_eq!(sanity_check_stop_bits(&[0x63, 0], 64), Err(Refusal::Width));
/// # Ok::<(), Refusal>(())
/// ```
pub fn sanity_check_stop_bits(map: &[u8], width: u32) -> Result<Stop, Refusal> {
    // SAFETY: as in `sanity_check_stop`.
    stopped(|reason, place| unsafe { sys::corbastrigo_sanity_check_stop_bits(map.as_ptr(), map.len(), width, reason, place) })
}

/// What a call says of where the check stops, which is handed the two numbers to write.
fn stopped(call: impl FnOnce(&mut u8, &mut usize) -> u8) -> Result<Stop, Refusal> {
    let (mut reason, mut place) = (0, 0);
    Refusal::check(call(&mut reason, &mut place))?;
    Ok(Stop { reason: Refusal::check(reason).err(), place })
}

/// How a walk ended.
#[derive(Clone, Copy, Debug, PartialEq, Eq)]
#[non_exhaustive]
pub enum End {
    /// At a RETURN.
    Returned,
    /// At a MATCH that differs, with the default.
    Differed,
    /// At a JUMP or MATCH that needs more address bits than are left.
    TooFewBits,
    /// At an opcode that the map's end cuts. So ends a walk too that comes to the map's end, or past it by a JUMP.
    CutOpcode,
    /// At an operand that the map's end cuts.
    CutOperand,
    /// A kind that this version has no name for, which counts as an abort.
    Other(u8),
}

impl End {
    /// Whether the walk was aborted: it ended neither at a RETURN nor at a difference. The number is 0 then and says nothing of the address.
    /// No map that the check accepts aborts a walk by as many bits as it was checked over.
    ///
    /// ```
    /// use corbastrigo::{interpret, End, Refusal};
    ///
    /// // A RETURN whose number is cut, and a MATCH of two bits, 00, with one bit of an opcode behind it.
    /// let ends = [interpret(&[0x00], &[0; 16])?.end, interpret(&[0x8b], &[0; 16])?.end];
    /// assert_eq!(ends, [End::CutOperand, End::CutOpcode]);
    /// assert!(ends.iter().all(|end| end.is_abort()) && !End::Differed.is_abort());
    /// # Ok::<(), Refusal>(())
    /// ```
    pub fn is_abort(self) -> bool {
        !matches!(self, End::Returned | End::Differed)
    }

    /// The kind that the library tells by its number.
    fn from_kind(kind: u8) -> End {
        match kind {
            sys::RETURNED => End::Returned,
            sys::DIFFERED => End::Differed,
            sys::TOO_FEW_BITS => End::TooFewBits,
            sys::CUT_OPCODE => End::CutOpcode,
            sys::CUT_OPERAND => End::CutOperand,
            other => End::Other(other),
        }
    }
}

/// A walk of a map by an address.
#[derive(Clone, Copy, Debug, PartialEq, Eq)]
#[non_exhaustive]
pub struct Walk {
    /// How it ended.
    pub end: End,
    /// The number that the address is sent to. 0 does not tell how the walk ended: `end` does.
    pub number: u32,
    /// The instructions that were read whole.
    pub count: u32,
    /// The address bits that were read, the differing one included.
    pub bits: u8,
}

/// Walks any map by any 16 address bytes, also one that the check refuses; then the walk may abort. Refusals 11 and 1.
///
/// ```
/// use corbastrigo::{interpret, End, Refusal};
///
/// let walk = interpret(&[1], &[0; 16])?;
/// // The JUMP is read, and the map ends behind it.
/// assert_eq!((walk.end, walk.number, walk.count, walk.bits), (End::CutOpcode, 0, 1, 1));
/// assert_eq!(interpret(&[1], &[0; 4]), Err(Refusal::AddressLength));
/// # Ok::<(), Refusal>(())
/// ```
pub fn interpret(map: &[u8], address: &[u8]) -> Result<Walk, Refusal> {
    let (map_at, map_len, address_at, address_len) = (map.as_ptr(), map.len(), address.as_ptr(), address.len());
    // SAFETY: the slices give their own pointers and lengths; the four numbers are borrowed for the call and are nobody else's.
    walked(|[kind, bits], [number, count]| unsafe {
        sys::corbastrigo_interpret(map_at, map_len, address_at, address_len, kind, number, count, bits)
    })
}

/// [`interpret`] by an address of `width` bits: the 4 bytes of an IPv4 address as they are, at 32, or 16 bytes, at 128. Refusals 18, 11
/// and 1.
///
/// ```
/// use corbastrigo::{interpret_bits, Refusal};
///
/// // A MATCH of one bit, 0, and a RETURN of 7.
/// let map = [0x03, 0x00, 0x18];
/// assert_eq!(interpret_bits(&map, &[1, 2, 3, 4], 32)?.number, 7);
/// assert_eq!(interpret_bits(&map, &[200, 2, 3, 4], 32)?.number, 0);
/// assert_eq!(interpret_bits(&map, &[0; 16], 32), Err(Refusal::AddressLength));
/// # Ok::<(), Refusal>(())
/// ```
pub fn interpret_bits(map: &[u8], address: &[u8], width: u32) -> Result<Walk, Refusal> {
    let (map_at, map_len, address_at, address_len) = (map.as_ptr(), map.len(), address.as_ptr(), address.len());
    // SAFETY: as in `interpret`.
    walked(|[kind, bits], [number, count]| unsafe {
        sys::corbastrigo_interpret_bits(map_at, map_len, address_at, address_len, width, kind, number, count, bits)
    })
}

/// What a call of the walk says, which is handed the kind and the bits, then the number and the count to write.
fn walked(call: impl FnOnce([&mut u8; 2], [&mut u32; 2]) -> u8) -> Result<Walk, Refusal> {
    let (mut kind, mut number, mut count, mut bits) = (0, 0, 0, 0);
    Refusal::check(call([&mut kind, &mut bits], [&mut number, &mut count]))?;
    Ok(Walk { end: End::from_kind(kind), number, count, bits })
}

/// The 16 bytes that a map is walked by: an IPv4 address in its mapped form.
pub fn ip16_for_lookup(ip: IpAddr) -> [u8; 16] {
    match ip {
        IpAddr::V4(v4) => v4.to_ipv6_mapped().octets(),
        IpAddr::V6(v6) => v6.octets(),
    }
}
