//! Writes the map of the story that the main job plays, docs/story/node.asmap, to standard output.
use maps::{shapes, Random};
use std::io::Write;

fn main() -> std::io::Result<()> {
    std::io::stdout().write_all(&shapes::story(&mut Random(1)))
}
