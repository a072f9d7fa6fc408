//! What usually causes each refusal of the check. `tests/damage.rs` damages maps in the ways that are named here and looks which refusals
//! that leads to; `tests/width.rs` has maps of 128 bits checked at 32.
use crate::files::MapFile;
use corbastrigo::Refusal;

/// What a file system writes at a time.
const PAGE: u64 = 4_096;

/// Whether a file's size is in whole pages, as that of one that lost its last page; by chance one size in 4,096 is.
fn in_whole_pages(file: &MapFile) -> bool {
    file.size % PAGE == 0
}

/// What usually causes a refusal. Changed bytes are met at the first instruction that fits no longer: there, or anywhere behind them.
pub fn usual_cause(refusal: Refusal, file: &MapFile) -> &'static str {
    match refusal {
        Refusal::MapTooLong => "it is no map, or several files in one: a map of the whole Internet has about 2 MB",
        Refusal::MapEnds if file.size == 0 => "the file was created and never written",
        Refusal::MapEnds => "the map lost its end, between two instructions: a copy broken off, or a last page not written",
        Refusal::PastTarget => "bytes in the middle were lost or overwritten, so that a jump before this no longer fits",
        Refusal::CutOpcode => "the map lost its end: a last page not written, or a copy broken off; an edit hardly ever leads to this",
        Refusal::CutOperand if in_whole_pages(file) => {
            "a last page not written, as its size is in whole pages; or else the map was edited, so that its last operand runs past the end"
        }
        Refusal::CutOperand => {
            "the map was edited, so that its last operand runs past the end; or a copy broke off, which is mostly within an operand"
        }
        Refusal::AfterDefault => {
            "a page was overwritten with zeros, ones or other bytes; or it is no map but a program or an archive"
        }
        Refusal::Padding => {
            "the file was filled up behind the map's end, or joined to another; or its beginning is lost, or it is no map but text"
        }
        Refusal::NotAtTarget => {
            "a page in the middle was lost, doubled or filled with zeros, so that a jump before this no longer fits"
        }
        Refusal::NoBits if file.width.is_ipv4() => {
            "it is a map of 128 address bits, with 96 in front of every IPv4 address: no map of width 32"
        }
        Refusal::NoBits => "the map was made by a program that counts address bits wrongly: damage hardly ever leads to this",
        Refusal::TargetsCross => "a page in the middle was lost, doubled or exchanged, so that two jumps no longer fit",
        Refusal::ShortMatches => {
            "the map was made by a program that does not join short MATCHes, or bytes in the middle were changed"
        }
        _ => "this version knows no usual cause",
    }
}

/// What whoever has the file can do.
pub fn advice(refusal: Refusal, file: &MapFile) -> &'static str {
    match refusal {
        Refusal::NoBits if file.width.is_ipv4() => "check it without --width 32, and use it without, if it is accepted there",
        Refusal::MapTooLong | Refusal::AfterDefault | Refusal::Padding => {
            "look whether this is the file that was meant; if it is, restore it from a whole copy"
        }
        Refusal::CutOperand if !in_whole_pages(file) => {
            "restore it from a whole copy, with the same digest, and edit maps only by asmap unpack and asmap pack"
        }
        Refusal::NoBits | Refusal::ShortMatches => {
            "make it again, with another program or a newer one, or restore it from a whole copy"
        }
        _ => "restore it from a whole copy; both must then have the same digest",
    }
}
