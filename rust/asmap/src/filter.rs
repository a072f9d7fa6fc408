//! `asmap filter`: which addresses can be no peer on the open Internet, and by which range.
use crate::args::Filter;
use crate::failure::{Failure, Outcome, Status};
use crate::out::{Out, Style};
use crate::ranges::{Decided, Ranges, Row};
use crate::width::Width;
use crate::words;
use corbastrigo::clearnet_unroutable;
use serde_json::{json, Value};
use std::net::IpAddr;

pub fn run(asked: &Filter, out: &mut Out) -> Outcome {
    let ranges = Ranges::new();
    let column = words::column(&asked.addresses, Width::MAPPED);
    words::each_address(&asked.addresses, Width::MAPPED, out, |address, out| {
        let decided = agreed(address, clearnet_unroutable(address), ranges.decide(address))?;
        if out.is_json() {
            return out.object(&object(address, &decided));
        }
        let (style, verdict) = if decided.unroutable { (Style::Bad, "unroutable") } else { (Style::Good, "routable") };
        let verdict = out.paint(style, &format!("{verdict:<10}"));
        let address = address.to_string();
        out.line(&format!("{address:<column$}  {verdict}  {}", decided.shown()))
    })?;
    Ok(Status::Done)
}

/// The row, where it comes to the library's verdict.
fn agreed(address: IpAddr, unroutable: bool, decided: Decided) -> Result<Decided, Failure> {
    if decided.unroutable != unroutable {
        let verdict = if unroutable { "unroutable" } else { "routable" };
        return Err(Failure::new(format!(
            "{address} is {verdict} by the library, but this program's table says: {}; please report this",
            decided.shown()
        )));
    }
    Ok(decided)
}

/// The fields of a row, all null where there is none.
fn row_object(row: Option<&Row>) -> Value {
    json!({ "range": row.map(|row| row.range), "name": row.map(|row| row.name), "source": row.map(|row| row.source) })
}

fn object(address: IpAddr, decided: &Decided) -> Value {
    let mut object = row_object(decided.row);
    object["address"] = json!(address.to_string());
    object["unroutable"] = json!(decided.unroutable);
    object["not_zero"] = json!(decided.not_zero.as_ref().map(|bytes| [bytes.start, bytes.end - 1]));
    object["ipv4"] = decided.ipv4.map_or(Value::Null, |(ipv4, row)| {
        let mut object = row_object(row);
        object["address"] = json!(ipv4.to_string());
        object
    });
    object
}

#[cfg(test)]
mod tests {
    use super::*;

    #[test]
    fn a_row_that_the_library_contradicts_is_not_shown() {
        let address = "10.0.0.1".parse().expect("an address");
        let decided = || Ranges::new().decide(address);
        assert_eq!(agreed(address, true, decided()).expect("both say unroutable"), decided());
        let failure = agreed(address, false, decided()).expect_err("they differ");
        assert!(matches!(failure, Failure::Said(message) if message.contains("please report")));
    }
}
