//! `asmap group`: in which group addresses are, and why.
use crate::args::Group;
use crate::failure::{Outcome, Status};
use crate::grouping::Grouping;
use crate::out::{Out, Style};
use crate::width::Width;
use crate::words;
use serde_json::json;
use std::net::SocketAddr;

pub fn run(asked: &Group, out: &mut Out) -> Outcome {
    let grouping = Grouping::asked(&asked.by)?;
    let column = words::column(&asked.addresses, Width::MAPPED);
    words::each_address(&asked.addresses, Width::MAPPED, out, |address, out| {
        // A group is that of the address: no port matters.
        let grouped = grouping.of(SocketAddr::new(address, 0))?;
        let address = address.to_string();
        if out.is_json() {
            let mut object = grouped.object();
            object["address"] = json!(address);
            return out.object(&object);
        }
        let group = out.paint(Style::Strong, &format!("{:>10}", grouped.group));
        out.line(&format!("{address:<column$}  {group}  {}", grouped.source()))
    })?;
    Ok(Status::Done)
}
