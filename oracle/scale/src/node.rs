// What a node asks of a map and of addresses. The file stands in two modules, over the original and over the safe crate: only the `use`
// lines differ.
use std::net::{IpAddr, SocketAddr};
use std::path::Path;

/// Everything that is asked about some addresses; `None` where the map is refused.
pub fn answers(map: Vec<u8>, ips: &[IpAddr]) -> Option<Vec<u64>> {
    let map = AsMap::from_bytes(map)?;
    let mut answers = vec![map.len() as u64];
    for &ip in ips {
        let peer = SocketAddr::new(ip, 8333);
        let walked = map.interpret_ip16(&ip16_for_lookup(ip));
        answers.extend([u64::from(map.mapped_as(ip)), u64::from(walked), u64::from(clearnet_unroutable(ip))]);
        answers.extend([netgroup(peer, Some(&map)), prefix_group(ip)]);
    }
    Some(answers)
}

/// The length of a map in a file; `None` where it is refused.
pub fn length_at(path: &Path) -> std::io::Result<Option<usize>> {
    Ok(AsMap::from_path(path)?.map(|map| map.len()))
}
