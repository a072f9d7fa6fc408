use crate::open::{self, OpenError};
use crate::{build, interpret, interpret_bits, ip16_for_lookup, load, sanity_check, sanity_check_bits, End, Prefix, Refusal, Walk};
use std::io;
use std::net::{IpAddr, Ipv4Addr};
use std::path::Path;

/// Bytes that the check over `WIDTH` address bits accepted. Nothing else makes them, so that no walk of them by as many bits aborts; and
/// the width is in the type, so that they are walked by no others.
#[derive(Clone, Debug, PartialEq, Eq)]
struct Accepted<const WIDTH: u32> {
    bytes: Vec<u8>,
}

impl<const WIDTH: u32> Accepted<WIDTH> {
    fn checked(bytes: Vec<u8>) -> Result<Self, Refusal> {
        match WIDTH {
            // Most maps have this width, and a call that takes none.
            128 => sanity_check(&bytes)?,
            width => sanity_check_bits(&bytes, width)?,
        };
        Ok(Accepted { bytes })
    }

    fn build(prefixes: &[Prefix], given: u32) -> Result<Self, Refusal> {
        let records: Vec<u8> = prefixes.iter().flat_map(|prefix| prefix.record()).collect();
        // The check accepts every map that is built, and is asked all the same.
        Self::checked(build(&records, given, WIDTH)?)
    }

    fn open(path: &Path) -> Result<Self, OpenError> {
        let bytes = open::bytes_at(path).map_err(|error| OpenError::Unreadable { path: path.to_path_buf(), error })?;
        Self::checked(bytes).map_err(|refusal| OpenError::Refused { path: path.to_path_buf(), refusal })
    }

    fn from_path(path: &Path) -> io::Result<Option<Self>> {
        Ok(Self::checked(open::bytes_at(path)?).ok())
    }

    #[cfg(feature = "digest")]
    fn digest(&self) -> [u8; 32] {
        use sha2::{Digest, Sha256};
        Sha256::digest(&self.bytes).into()
    }

    #[cfg(feature = "digest")]
    fn digest_hex8(&self) -> String {
        self.digest()[..4].iter().map(|byte| format!("{byte:02x}")).collect()
    }

    /// The walk by an address of as many bits as the width.
    fn walk(&self, address: &[u8]) -> Walk {
        let walk = match WIDTH {
            128 => interpret(&self.bytes, address),
            width => interpret_bits(&self.bytes, address, width),
        };
        // An accepted map is within the limit, and its width and the address's length fit, so nothing is left to refuse.
        walk.unwrap_or(Walk { end: End::Other(0), number: 0, count: 0, bits: 0 })
    }
}

/// A map that the check accepted. There is no other way to make one, so that no walk of it aborts.
///
/// Its addresses have 128 bits, an IPv4 address among them in its mapped form. A map without those 96 bits is an [`AsMap4`].
#[derive(Clone, Debug, PartialEq, Eq)]
pub struct AsMap(Accepted<128>);

impl AsMap {
    /// `None` where the check refuses; [`AsMap::checked`] says why.
    ///
    /// ```
    /// use corbastrigo::AsMap;
    ///
    /// assert_eq!(AsMap::from_bytes(vec![0, 0, 0]).map(|map| map.len()), Some(3));
    /// assert_eq!(AsMap::from_bytes(vec![0, 0]), None);
    /// ```
    pub fn from_bytes(bytes: Vec<u8>) -> Option<AsMap> {
        AsMap::checked(bytes).ok()
    }

    /// The map, or the check's reason.
    ///
    /// ```
    /// use corbastrigo::{AsMap, Refusal};
    ///
    /// assert_eq!(AsMap::checked(vec![0, 0]), Err(Refusal::CutOperand));
    /// ```
    pub fn checked(bytes: Vec<u8>) -> Result<AsMap, Refusal> {
        Accepted::checked(bytes).map(AsMap)
    }

    /// A map from a file, or why there is none: the file could not be read, or the check refused what is in it. It reads one byte past
    /// the limit at most, which is enough to refuse the rest.
    ///
    /// ```
    /// use corbastrigo::{AsMap, OpenError};
    /// use std::error::Error;
    ///
    /// let error = AsMap::open("/nowhere/node.asmap").unwrap_err();
    /// assert_eq!(error.to_string(), "/nowhere/node.asmap cannot be read");
    /// if let Some(reason) = error.source() {
    ///     eprintln!("{error}: {reason}");
    /// }
    /// match error {
    ///     OpenError::Unreadable { error, .. } => assert_eq!(error.kind(), std::io::ErrorKind::NotFound),
    ///     OpenError::Refused { refusal, .. } => panic!("{refusal}"),
    ///     other => panic!("{other}"),
    /// }
    /// ```
    pub fn open(path: impl AsRef<Path>) -> Result<AsMap, OpenError> {
        Accepted::open(path.as_ref()).map(AsMap)
    }

    /// A map from a file; `Ok(None)` where the check refuses it, as the original has it. [`AsMap::open`] says why.
    ///
    /// ```
    /// use corbastrigo::AsMap;
    /// use std::path::Path;
    ///
    /// # fn main() -> std::io::Result<()> {
    /// assert_eq!(AsMap::from_path(Path::new("/dev/null"))?, None);
    /// assert!(AsMap::from_path(Path::new("/nowhere/node.asmap")).is_err());
    /// # Ok(())
    /// # }
    /// ```
    pub fn from_path(path: &Path) -> io::Result<Option<AsMap>> {
        Ok(Accepted::from_path(path)?.map(AsMap))
    }

    /// The map of a list of prefixes, which rise by address and do not overlap, and of a number for all other addresses, as
    /// [`build`](crate::build()) makes it: for whoever undoes single prefixes of a map. IPv4 stands under ::ffff:0:0/96, as
    /// [`list`](crate::list()) has it. Refusals 21, 22, 1.
    ///
    /// ```
    /// use corbastrigo::{list, prefixes, AsMap, Prefix, Refusal};
    /// use std::net::Ipv4Addr;
    ///
    /// let network = |a, b, length: u8, number| {
    ///     Prefix { address: Ipv4Addr::new(a, b, 0, 0).to_ipv6_mapped().octets(), length: 96 + length, number }
    /// };
    /// let old = AsMap::build(&[network(1, 2, 16, 11), network(3, 4, 16, 22)], 1)?;
    /// let new = AsMap::build(&[network(1, 2, 16, 99), network(3, 4, 16, 99)], 1)?;
    /// // Of the new map 1.2.0.0/16 alone is undone.
    /// let mut listed: Vec<Prefix> = prefixes(&list(new.as_bytes())?).collect();
    /// for prefix in &mut listed {
    ///     if (prefix.address, prefix.length) == (network(1, 2, 16, 0).address, 96 + 16) {
    ///         prefix.number = old.interpret_ip16(&prefix.address);
    ///     }
    /// }
    /// let undone = AsMap::build(&listed, 1)?;
    /// let numbers = [[1, 2, 3, 4], [3, 4, 5, 6], [5, 6, 7, 8]].map(|address| undone.mapped_as(Ipv4Addr::from(address).into()));
    /// assert_eq!(numbers, [11, 99, 1]);
    /// assert_eq!(AsMap::build(&[network(1, 2, 16, 0)], 1), Err(Refusal::Number));
    /// # Ok::<(), Refusal>(())
    /// ```
    pub fn build(prefixes: &[Prefix], given: u32) -> Result<AsMap, Refusal> {
        Accepted::build(prefixes, given).map(AsMap)
    }

    /// The load of a seed and a number of pairs, as [`load`](crate::load()) makes it: a map to measure groups and picks with that everyone can
    /// make again. The check accepts every load. Refusal 20 for the seed 0, or more than 128 pairs.
    ///
    /// ```
    /// use corbastrigo::{load_address, AsMap, Generator, Refusal};
    ///
    /// let map = AsMap::load(Generator::DEFAULT_SEED, 128)?;
    /// assert_eq!(map.walk(&load_address(1, 128)?).count, 257);
    /// assert_eq!(AsMap::load(0, 128), Err(Refusal::Load));
    /// # Ok::<(), Refusal>(())
    /// ```
    pub fn load(seed: u64, pairs: usize) -> Result<AsMap, Refusal> {
        AsMap::checked(load(seed, pairs)?)
    }

    /// How many bytes the map has. An accepted map is never empty.
    #[allow(clippy::len_without_is_empty)]
    pub fn len(&self) -> usize {
        self.0.bytes.len()
    }

    /// The map's bytes.
    pub fn as_bytes(&self) -> &[u8] {
        &self.0.bytes
    }

    /// The SHA-256 of the map's bytes, which names the map among others. It is made by the crate `sha2`, and nothing about it is proved.
    #[cfg(feature = "digest")]
    pub fn digest(&self) -> [u8; 32] {
        self.0.digest()
    }

    /// The first eight hexadecimal digits of [`AsMap::digest`], which is what the original shows.
    ///
    /// ```
    /// use corbastrigo::{AsMap, Refusal};
    ///
    /// assert_eq!(AsMap::checked(vec![0, 0, 0])?.digest_hex8(), "709e80c8");
    /// # Ok::<(), Refusal>(())
    /// ```
    #[cfg(feature = "digest")]
    pub fn digest_hex8(&self) -> String {
        self.0.digest_hex8()
    }

    /// How the walk by an address ends, with its number and counts.
    ///
    /// ```
    /// use corbastrigo::{ip16_for_lookup, AsMap, End, Refusal};
    /// use std::net::Ipv4Addr;
    ///
    /// let map = AsMap::checked(vec![0, 0, 0])?;
    /// let walk = map.walk(&ip16_for_lookup(Ipv4Addr::new(1, 2, 3, 4).into()));
    /// assert_eq!((walk.end, walk.number, walk.count, walk.bits), (End::Returned, 1, 1, 0));
    /// # Ok::<(), Refusal>(())
    /// ```
    pub fn walk(&self, ip16: &[u8; 16]) -> Walk {
        self.0.walk(ip16)
    }

    /// The number that 16 address bytes are sent to. 0 does not tell how the walk ended: [`AsMap::walk`] does.
    pub fn interpret_ip16(&self, ip16: &[u8; 16]) -> u32 {
        self.walk(ip16).number
    }

    /// The number that an address is sent to. 0 does not tell how the walk ended: [`AsMap::walk`] does.
    ///
    /// ```
    /// use corbastrigo::{AsMap, Refusal};
    /// use std::net::Ipv4Addr;
    ///
    /// let map = AsMap::checked(vec![0, 0, 0])?;
    /// assert_eq!(map.mapped_as(Ipv4Addr::new(1, 2, 3, 4).into()), 1);
    /// # Ok::<(), Refusal>(())
    /// ```
    pub fn mapped_as(&self, ip: IpAddr) -> u32 {
        self.interpret_ip16(&ip16_for_lookup(ip))
    }
}

/// A map of four-byte addresses that the check accepted: one without the 96 bits that stand in front of an IPv4 address in an [`AsMap`].
/// There is no other way to make one, so that no walk of it aborts.
///
/// The check over 128 bits would accept its bytes too, and a walk by 16 bytes would end with numbers that the map has for other addresses.
/// So the two are types of their own, and no way leads from one to the other but by the bytes and another check. Groups, picks and pages are
/// by an [`AsMap`] alone:
///
/// ```
/// # use corbastrigo::{select_diverse, AsMap, Refusal};
/// # use std::collections::HashSet;
/// let map = AsMap::checked(vec![0, 0, 0])?;
/// select_diverse(&[], 8, &HashSet::new(), Some(&map))?;
/// # Ok::<(), Refusal>(())
/// ```
///
/// ```compile_fail,E0308
/// # use corbastrigo::{select_diverse, AsMap4, Refusal};
/// # use std::collections::HashSet;
/// let map = AsMap4::checked(vec![0, 0, 0])?;
/// select_diverse(&[], 8, &HashSet::new(), Some(&map))?;
/// # Ok::<(), Refusal>(())
/// ```
///
/// It is walked by an IPv4 address as it is, and not by 16 bytes:
///
/// ```
/// # use corbastrigo::{AsMap, Refusal};
/// let map = AsMap::checked(vec![0, 0, 0])?;
/// map.walk(&[0; 16]);
/// # Ok::<(), Refusal>(())
/// ```
///
/// ```compile_fail,E0308
/// # use corbastrigo::{AsMap4, Refusal};
/// let map = AsMap4::checked(vec![0, 0, 0])?;
/// map.walk(&[0; 16]);
/// # Ok::<(), Refusal>(())
/// ```
///
/// Nor does one become the other:
///
/// ```compile_fail,E0277
/// # use corbastrigo::{AsMap, AsMap4, Refusal};
/// let map = AsMap4::checked(vec![0, 0, 0])?;
/// let map: AsMap = map.into();
/// # Ok::<(), Refusal>(())
/// ```
#[derive(Clone, Debug, PartialEq, Eq)]
pub struct AsMap4(Accepted<32>);

impl AsMap4 {
    /// `None` where the check over 32 bits refuses; [`AsMap4::checked`] says why.
    pub fn from_bytes(bytes: Vec<u8>) -> Option<AsMap4> {
        AsMap4::checked(bytes).ok()
    }

    /// The map, or the check's reason. A map of 128 bits that tells IPv4 addresses apart uses more than 96 of them, and is refused for it, 8.
    ///
    /// ```
    /// use corbastrigo::{AsMap4, Refusal};
    ///
    /// assert_eq!(AsMap4::checked(vec![0, 0, 0])?.len(), 3);
    /// assert_eq!(AsMap4::checked(vec![0, 0]), Err(Refusal::CutOperand));
    /// # Ok::<(), Refusal>(())
    /// ```
    pub fn checked(bytes: Vec<u8>) -> Result<AsMap4, Refusal> {
        Accepted::checked(bytes).map(AsMap4)
    }

    /// The map of a list of prefixes and of a number for all other addresses, as [`AsMap::build`] has it, of four-byte addresses: they stand in
    /// the first four bytes of [`Prefix::address`], and lengths are as one writes them. Refusals 21, 22, 1.
    ///
    /// ```
    /// use corbastrigo::{AsMap4, Prefix, Refusal};
    ///
    /// let mut address = [0; 16];
    /// address[..2].copy_from_slice(&[1, 2]);
    /// let map = AsMap4::build(&[Prefix { address, length: 16, number: 7 }], 1)?;
    /// assert_eq!([[1, 2, 3, 4], [1, 3, 3, 4]].map(|address| map.mapped_as(address.into())), [7, 1]);
    /// assert_eq!(AsMap4::build(&[Prefix { address, length: 33, number: 7 }], 1), Err(Refusal::Prefix));
    /// # Ok::<(), Refusal>(())
    /// ```
    pub fn build(prefixes: &[Prefix], given: u32) -> Result<AsMap4, Refusal> {
        Accepted::build(prefixes, given).map(AsMap4)
    }

    /// A map from a file, or why there is none, as [`AsMap::open`] has it.
    pub fn open(path: impl AsRef<Path>) -> Result<AsMap4, OpenError> {
        Accepted::open(path.as_ref()).map(AsMap4)
    }

    /// A map from a file; `Ok(None)` where the check refuses it. [`AsMap4::open`] says why.
    pub fn from_path(path: &Path) -> io::Result<Option<AsMap4>> {
        Ok(Accepted::from_path(path)?.map(AsMap4))
    }

    /// How many bytes the map has. An accepted map is never empty.
    #[allow(clippy::len_without_is_empty)]
    pub fn len(&self) -> usize {
        self.0.bytes.len()
    }

    /// The map's bytes.
    pub fn as_bytes(&self) -> &[u8] {
        &self.0.bytes
    }

    /// The SHA-256 of the map's bytes, as [`AsMap::digest`] has it.
    #[cfg(feature = "digest")]
    pub fn digest(&self) -> [u8; 32] {
        self.0.digest()
    }

    /// The first eight hexadecimal digits of [`AsMap4::digest`].
    #[cfg(feature = "digest")]
    pub fn digest_hex8(&self) -> String {
        self.0.digest_hex8()
    }

    /// How the walk by an address ends, with its number and counts: at most 65 instructions.
    ///
    /// ```
    /// use corbastrigo::{AsMap4, End, Refusal};
    /// use std::net::Ipv4Addr;
    ///
    /// // A MATCH of one bit, 0, and a RETURN of 7.
    /// let map = AsMap4::checked(vec![0x03, 0x00, 0x18])?;
    /// let walk = map.walk(Ipv4Addr::new(1, 2, 3, 4));
    /// assert_eq!((walk.end, walk.number, walk.count, walk.bits), (End::Returned, 7, 2, 1));
    /// # Ok::<(), Refusal>(())
    /// ```
    pub fn walk(&self, address: Ipv4Addr) -> Walk {
        self.0.walk(&address.octets())
    }

    /// The number that an address is sent to. 0 does not tell how the walk ended: [`AsMap4::walk`] does.
    ///
    /// ```
    /// use corbastrigo::{AsMap, AsMap4, Refusal};
    /// use std::net::Ipv4Addr;
    ///
    /// // A MATCH of one bit, 1, and a RETURN of 7. By 128 bits an IPv4 address begins with 0.
    /// let (bytes, address) = (vec![0x13, 0x00, 0x18], Ipv4Addr::new(200, 2, 3, 4));
    /// assert_eq!(AsMap4::checked(bytes.clone())?.mapped_as(address), 7);
    /// assert_eq!(AsMap::checked(bytes)?.mapped_as(address.into()), 0);
    /// # Ok::<(), Refusal>(())
    /// ```
    pub fn mapped_as(&self, address: Ipv4Addr) -> u32 {
        self.walk(address).number
    }
}
