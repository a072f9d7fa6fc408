//! The manual page and the completions, made from the arguments' own texts.
use crate::args::{Arguments, Completions};
use crate::failure::{Outcome, Status};
use crate::out::Out;
use clap::{Arg, Command, CommandFactory};

/// The completions of a shell.
pub fn completions(asked: &Completions, out: &mut Out) -> Outcome {
    let mut text = Vec::new();
    clap_complete::generate(asked.shell, &mut Arguments::command(), "asmap", &mut text);
    out.bytes(&text)?;
    Ok(Status::Done)
}

/// The manual page.
pub fn run(out: &mut Out) -> Outcome {
    let mut command = Arguments::command();
    command.build();
    out.bytes(page(&command).as_bytes())?;
    Ok(Status::Done)
}

/// The whole page, in the language of man(7).
fn page(command: &Command) -> String {
    let (name, version) = (command.get_name(), command.get_version().unwrap_or_default());
    let mut page = Page(format!(".TH {} 1 \"\" \"{name} {version}\" \"User Commands\"\n", name.to_uppercase()));
    page.heading("SH", "NAME");
    page.text(&format!("{name} - {}", about(command)));
    page.heading("SH", "SYNOPSIS");
    page.text(&usage(command));
    page.heading("SH", "OPTIONS");
    command.get_arguments().for_each(|argument| page.argument(argument));
    page.heading("SH", "COMMANDS");
    for subcommand in command.get_subcommands().filter(|subcommand| !subcommand.is_hide_set() && subcommand.get_name() != "help") {
        page.subcommand(subcommand);
    }
    page.after(command, "SH");
    page.0
}

fn about(command: &Command) -> String {
    command.get_about().map(|about| about.to_string()).unwrap_or_default()
}

/// How a command is called, without clap's heading.
fn usage(command: &Command) -> String {
    let usage = command.clone().render_usage().to_string();
    usage.trim_start_matches("Usage:").trim().to_string()
}

/// A page that is being written.
struct Page(String);

impl Page {
    fn request(&mut self, request: &str) {
        self.0 += &format!(".{request}\n");
    }

    fn heading(&mut self, kind: &str, title: &str) {
        self.request(&format!("{kind} \"{}\"", escaped(title).replace('"', "\\(dq")));
    }

    /// A line of text.
    fn text(&mut self, text: &str) {
        self.0 += &format!("{}\n", escaped(text));
    }

    /// An argument or option with its help.
    fn argument(&mut self, argument: &Arg) {
        self.request("TP");
        self.0 += &format!("\\fB{}\\fR\n", escaped(&called(argument)));
        let values: Vec<String> = argument.get_possible_values().iter().map(|value| value.get_name().to_string()).collect();
        let help = argument.get_help().map(|help| help.to_string()).unwrap_or_default();
        // A flag has a default too, which says nothing.
        let takes = argument.get_action().takes_values();
        let default = argument.get_default_values().first().filter(|_| takes);
        let default = default.map_or(String::new(), |value| format!(" [default: {}]", value.to_string_lossy()));
        let values = if takes && !values.is_empty() { format!(": {}", values.join(", ")) } else { String::new() };
        self.text(&format!("{help}{values}{default}"));
    }

    fn subcommand(&mut self, command: &Command) {
        self.heading("SS", &usage(command));
        self.text(&about(command));
        // What every subcommand takes stands once, above.
        let shared = |argument: &&Arg| argument.is_global_set() || argument.get_id() == "help";
        command.get_arguments().filter(|argument| !shared(argument)).for_each(|argument| self.argument(argument));
        self.after(command, "PP");
    }

    /// The text after a command's help: headings that end in a colon, and indented lines, which stay as they are.
    fn after(&mut self, command: &Command, kind: &str) {
        let text = command.get_after_help().map(|text| text.to_string()).unwrap_or_default();
        let mut lines = text.lines().filter(|line| !line.is_empty()).peekable();
        while let Some(line) = lines.next() {
            match (line.strip_suffix(':'), kind) {
                (Some(title), "SH") => self.heading("SH", &title.to_uppercase()),
                _ => {
                    self.request(kind);
                    self.text(line);
                }
            }
            ["RS 4", "nf"].iter().for_each(|request| self.request(request));
            while let Some(line) = lines.next_if(|line| line.starts_with("  ")) {
                self.text(line.trim_start());
            }
            ["fi", "RE"].iter().for_each(|request| self.request(request));
        }
    }
}

/// An argument as it is written: `-o, --output <FILE>` or `<MAP>...`.
fn called(argument: &Arg) -> String {
    match (argument.get_short(), argument.get_long()) {
        (Some(short), Some(_)) => format!("-{short}, {argument}"),
        _ => argument.to_string(),
    }
}

/// Text as man(7) takes it: no character of it is a request or an escape, and a hyphen is one that can be copied.
fn escaped(text: &str) -> String {
    let text = text.replace('\\', "\\e").replace('-', "\\-").replace('`', "\\(ga");
    match text.starts_with(['.', '\'']) {
        true => format!("\\&{text}"),
        false => text,
    }
}

#[cfg(test)]
mod tests {
    use super::*;

    #[test]
    fn no_text_is_taken_for_a_request_or_an_escape() {
        assert_eq!([".SH x", "'x", "a\\b", "--max", "x.y"].map(escaped), ["\\&.SH x", "\\&'x", "a\\eb", "\\-\\-max", "x.y"]);
    }

    #[test]
    fn every_subcommand_has_its_example() {
        let command = Arguments::command();
        for subcommand in command.get_subcommands().filter(|subcommand| !subcommand.is_hide_set()) {
            let after = subcommand.get_after_help().map(|text| text.to_string()).unwrap_or_default();
            assert!(after.contains(&format!("asmap {} ", subcommand.get_name())), "{}", subcommand.get_name());
        }
    }
}
