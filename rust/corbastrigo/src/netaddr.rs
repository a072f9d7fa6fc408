use crate::{ip16_for_lookup, Refusal};
use corbastrigo_sys as sys;
use std::net::IpAddr;

/// Whether an address can be no peer on the open Internet. fc00::/8 (CJDNS) is none of those.
///
/// ```
/// use corbastrigo::clearnet_unroutable;
/// use std::net::{Ipv4Addr, Ipv6Addr};
///
/// assert!(clearnet_unroutable(Ipv4Addr::new(10, 0, 0, 1).into()));
/// assert!(!clearnet_unroutable(Ipv6Addr::new(0xfc00, 0, 0, 0, 0, 0, 0, 1).into()));
/// ```
pub fn clearnet_unroutable(ip: IpAddr) -> bool {
    let address = ip16_for_lookup(ip);
    let mut unroutable = 0;
    // The one refusal is for another length than 16.
    // SAFETY: the array gives its own pointer and length; the number is borrowed for the call and is nobody else's.
    unsafe { sys::corbastrigo_clearnet_unroutable(address.as_ptr(), address.len(), &mut unroutable) };
    unroutable == 1
}

/// Whether an addrv2 entry must not be forwarded: its BIP155 network id, its address bytes and its port. Refusal 17 for a length that
/// the network does not have.
///
/// ```
/// use corbastrigo::{addrv2_skip_relay, Refusal};
///
/// assert_eq!(addrv2_skip_relay(1, &[8, 8, 8, 8], 8333), Ok(false));
/// assert_eq!(addrv2_skip_relay(1, &[10, 0, 0, 1], 8333), Ok(true));
/// assert_eq!(addrv2_skip_relay(1, &[8, 8, 8], 8333), Err(Refusal::RelayLength));
/// ```
pub fn addrv2_skip_relay(network: u8, address: &[u8], port: u16) -> Result<bool, Refusal> {
    let mut skips = 0;
    // SAFETY: the slice gives its own pointer and length; the number is borrowed for the call and is nobody else's.
    let answer = unsafe { sys::corbastrigo_addrv2_skip_relay(network, address.as_ptr(), address.len(), port, &mut skips) };
    Refusal::check(answer)?;
    Ok(skips == 1)
}
