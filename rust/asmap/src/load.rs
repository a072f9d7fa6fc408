//! `asmap load`: a map to measure with that everyone can make again from a seed and a number of pairs. Which bytes come out, and which seeds
//! and numbers are refused, is the library's to say; so are the instructions that are told, by its check and by a walk of the map.
use crate::args::Load;
use crate::failure::{say, Failure, Outcome, Status};
use crate::files;
use crate::out::Out;
use crate::whole::{room_for_a_map, Sink};
use crate::words::counted;
use corbastrigo::{interpret, load, load_address, sanity_check, Refusal};
use serde_json::json;
use std::net::Ipv6Addr;

pub fn run(asked: &Load, out: &mut Out) -> Outcome {
    room_for_a_map(asked.output.as_deref(), out)?;
    let said = |refusal: Refusal| refused(asked, refusal);
    let map = load(asked.seed, asked.pairs).map_err(said)?;
    let address = load_address(asked.seed, asked.pairs).map_err(said)?;
    let instructions = sanity_check(&map).map_err(said)?.count;
    let walked = interpret(&map, &address).map_err(said)?.count;
    let mut sink = Sink::binary(asked.output.as_deref(), &[], out)?;
    sink.bytes(&map)?;
    sink.finish()?;
    let (address, size) = (Ipv6Addr::from(address), map.len());
    if out.is_json() {
        out.object(&json!({
            "output": asked.output.as_deref().map(files::shown), "seed": asked.seed, "pairs": asked.pairs, "bytes": size,
            "instructions": instructions, "address": address.to_string(), "walked": walked,
        }))?;
    } else {
        let (size, count) = (counted(size as u64, "byte", "bytes"), counted(instructions.into(), "instruction", "instructions"));
        let pairs = counted(asked.pairs as u64, "pair", "pairs");
        say(&format!("{pairs} from seed {}: {size}, {count}; the walk by {address} reads {walked}", asked.seed));
    }
    Ok(Status::Done)
}

/// The refusal of what was asked for.
fn refused(asked: &Load, refusal: Refusal) -> Failure {
    let Load { seed, pairs, .. } = asked;
    Failure::new(format!("--seed {seed} --pairs {pairs} is refused, {}: {}", refusal.number(), refusal.reason()))
}
