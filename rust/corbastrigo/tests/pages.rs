//! The page of a candidate list (document 02, CR 4): its columns, exact halves, the largest lists, and what is refused.
use corbastrigo::*;
use std::net::{Ipv4Addr, SocketAddr};

/// 0.0.0.0/7 is sent to 1, 2.0.0.0/7 to 2: document 01's map of two prefixes.
const TWO_PREFIXES: [u8; 35] = [
    0xfb, 0x03, 0xec, 0x0f, 0xb0, 0x3f, 0xc0, 0xfe, 0x00, 0xfb, 0x03, 0xec, 0x0f, 0xb0, 0x3f, 0xc0, 0xfe, 0x00, 0xfb, 0x03, 0xec,
    0x0f, 0xb0, 0xff, 0xff, 0xfe, 0xff, 0xfb, 0x80, 0x00, 0x00, 0x00, 0x00, 0x00, 0x01,
];

fn peers(texts: &[&str]) -> Vec<SocketAddr> {
    texts.iter().map(|text| SocketAddr::new(text.parse().expect("an address"), 8333)).collect()
}

/// A peer of the n-th prefix of IPv4, whose group is so much over [`IPV4_GROUPS`]; its port tells it apart from others.
fn in_group(group: u16, port: u16) -> SocketAddr {
    SocketAddr::from((Ipv4Addr::from(u32::from(group) << 16), port))
}

/// So many candidates of prefix 2 among so many in all; the others have prefix 1.
fn so_many_of(candidates: u16, all: u16) -> Vec<SocketAddr> {
    (0..all).map(|place| in_group(if place < candidates { 2 } else { 1 }, place)).collect()
}

fn printed(candidates: &[SocketAddr], map: Option<&AsMap>) -> Page {
    page(candidates, map).expect("within the limit")
}

fn shares(page: &Page) -> Vec<(u64, usize, u32)> {
    page.shares().map(|share| (share.group, share.candidates, share.tenths)).collect()
}

#[test]
fn a_list_is_printed_by_prefixes_and_by_a_map() {
    let list = peers(&["3.4.0.1", "8.8.8.8", "1.2.0.1", "3.4.0.2", "::ffff:1.2.3.4", "2001:db8::1"]);
    let by_prefix = printed(&list, None);
    let lines =
        [" 536939960      1   16.7\n", "4294967554      2   33.3\n", "4294968068      2   33.3\n", "4294969352      1   16.7\n"];
    assert_eq!(by_prefix.as_str(), lines.concat());
    assert_eq!(by_prefix.to_string(), by_prefix.as_str());
    let [of_1_2, of_3_4, of_8_8] = [258, 772, 2_056].map(|old| IPV4_GROUPS + old);
    assert_eq!(shares(&by_prefix), [(0x2001_0db8, 1, 167), (of_1_2, 2, 333), (of_3_4, 2, 333), (of_8_8, 1, 167)]);
    let map = AsMap::checked(TWO_PREFIXES.to_vec()).expect("accepted");
    let by_map = printed(&list, Some(&map));
    assert_eq!(by_map.as_str(), "         0      2   33.3\n         1      2   33.3\n         2      2   33.3\n");
    assert_eq!(shares(&by_map), [(0, 2, 333), (1, 2, 333), (2, 2, 333)]);
}

#[test]
fn a_list_is_printed_by_the_old_numbering() {
    let list = peers(&["3.4.0.1", "0:102::1", "1.2.0.1", "3.4.0.2", "::ffff:1.2.3.4", "2001:db8::1"]);
    let page = old_prefix_page(&list).expect("within the limit");
    let lines =
        ["         0      1   16.7\n", "       258      2   33.3\n", "       772      2   33.3\n", " 536939960      1   16.7\n"];
    assert_eq!(page.as_str(), lines.concat());
    assert_eq!(shares(&page), [(0, 1, 167), (258, 2, 333), (772, 2, 333), (0x2001_0db8, 1, 167)]);
    assert_eq!(old_prefix_page(&[]).map(|page| page.to_string()), Ok(String::new()));
}

#[test]
fn the_order_of_a_list_is_nothing_to_its_page() {
    let mut list = peers(&["9.9.0.1", "1.2.0.1", "9.9.0.2", "5.6.0.1", "1.2.0.1"]);
    let (page, old) = (printed(&list, None), old_prefix_page(&list));
    let [of_1_2, of_5_6, of_9_9] = [258, 1_286, 2_313].map(|old| IPV4_GROUPS + old);
    assert_eq!(shares(&page), [(of_1_2, 2, 400), (of_5_6, 1, 200), (of_9_9, 2, 400)]);
    list.reverse();
    assert_eq!((printed(&list, None), old_prefix_page(&list)), (page.clone(), old.clone()));
    list.swap(0, 1);
    assert_eq!((printed(&list, None), old_prefix_page(&list)), (page, old));
}

#[test]
fn no_candidates_have_no_line() {
    let map = AsMap::checked(TWO_PREFIXES.to_vec()).expect("accepted");
    for map in [None, Some(&map)] {
        let page = printed(&[], map);
        assert_eq!((page.as_str(), page.to_string(), shares(&page)), ("", String::new(), vec![]));
    }
}

#[test]
fn exact_halves_are_rounded_up() {
    for (candidates, all, text, tenths) in [
        (1, 16, "6.3", 63),
        (3, 16, "18.8", 188),
        (5, 16, "31.3", 313),
        (7, 16, "43.8", 438),
        (2, 32, "6.3", 63),
        (6, 32, "18.8", 188),
        (1, 80, "1.3", 13),
        (1, 2_000, "0.1", 1),
    ] {
        // What makes it a half: in half tenths it is a whole number, and odd.
        let half_tenths = 2_000 * u32::from(candidates);
        assert_eq!((half_tenths % u32::from(all), half_tenths / u32::from(all) % 2), (0, 1));
        let page = printed(&so_many_of(candidates, all), None);
        assert_eq!(page.as_str().lines().last(), Some(&*format!("4294967298 {candidates:>6} {text:>6}")));
        assert_eq!(shares(&page).last(), Some(&(4_294_967_298, usize::from(candidates), tenths)));
    }
}

#[test]
fn what_is_no_half_is_rounded_to_the_nearer_tenth() {
    for (candidates, all, tenths) in
        [(1, 3, 333), (2, 3, 667), (1, 2_001, 0), (1, 1_999, 1), (1, 17, 59), (1, 15, 67), (4_095, 4_096, 1_000)]
    {
        let page = printed(&so_many_of(candidates, all), None);
        assert_eq!(shares(&page).last(), Some(&(4_294_967_298, usize::from(candidates), tenths)), "{candidates} of {all}");
    }
}

#[test]
fn as_many_candidates_as_there_may_be() {
    let most = MAX_CANDIDATES as u16;
    let apart: Vec<SocketAddr> = (0..most).rev().map(|group| in_group(group, 8333)).collect();
    let page = printed(&apart, None);
    assert_eq!(page.as_str().len(), 102_400);
    assert_eq!(page.as_str().lines().nth(4_095), Some("4294971391      1    0.0"));
    assert_eq!(shares(&page), (0..u64::from(most)).map(|group| (IPV4_GROUPS + group, 1, 0)).collect::<Vec<_>>());
    let old = old_prefix_page(&apart).expect("within the limit");
    assert_eq!(old.as_str().lines().nth(4_095), Some("      4095      1    0.0"));
    assert_eq!(shares(&old), (0..u64::from(most)).map(|group| (group, 1, 0)).collect::<Vec<_>>());
    let alike = vec![peers(&["ffff:ffff::1"])[0]; MAX_CANDIDATES];
    let page = printed(&alike, None);
    assert_eq!(page.as_str(), "4294967295   4096  100.0\n");
    assert_eq!(shares(&page), [(0xffff_ffff, 4_096, 1_000)]);
    assert_eq!(printed(&alike[..1], None).as_str(), "4294967295      1  100.0\n");
    // The greatest group of all has as many digits.
    assert_eq!(printed(&peers(&["255.255.0.1"]), None).as_str(), "4295032831      1  100.0\n");
}

#[test]
fn one_candidate_more_is_refused() {
    let map = AsMap::checked(TWO_PREFIXES.to_vec()).expect("accepted");
    for many in [MAX_CANDIDATES + 1, 3 * MAX_CANDIDATES] {
        let list = vec![in_group(1, 8333); many];
        for page in [page(&list, None), page(&list, Some(&map)), old_prefix_page(&list)] {
            assert_eq!(page, Err(Refusal::TooMany));
        }
    }
    assert_eq!(Refusal::TooMany.number(), 12);
}
