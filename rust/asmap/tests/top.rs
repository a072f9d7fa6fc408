//! The command as a whole: version, help, misuse, manual page, completions.
mod common;
use common::{asmap, is_there, on_a_terminal, stored, text, Folder};
use std::process::Command;

fn answer(arguments: &[&str]) -> std::process::Output {
    asmap().args(arguments).output().expect("the command runs")
}

#[test]
fn version_and_help() {
    stored("version", &answer(&["--version"]));
    stored("help", &answer(&["--help"]));
    stored("help_without_arguments", &answer(&[]));
    for subcommand in ["check", "walk", "trace", "completions"] {
        stored(&format!("help_{subcommand}"), &answer(&[subcommand, "--help"]));
    }
}

#[test]
fn misuse_ends_with_2_and_says_what_to_do() {
    stored("misuse_subcommand", &answer(&["chek", "two.asmap"]));
    stored("misuse_check", &answer(&["check"]));
    stored("misuse_walk", &answer(&["walk", "two.asmap"]));
    stored("misuse_trace", &answer(&["trace", "two.asmap", "1.2.3.4", "5.6.7.8"]));
    stored("misuse_option", &answer(&["walk", "--uncheked", "two.asmap", "1.2.3.4"]));
    stored("misuse_shell", &answer(&["completions", "sh"]));
}

/// The subcommands that take a width.
const WITH_WIDTH: [&str; 8] = ["check", "walk", "trace", "list", "diff", "undo-check", "unpack", "pack"];

/// Those that take none.
const WITHOUT_WIDTH: [&str; 7] = ["load", "group", "pick", "scan", "page", "filter", "completions"];

/// Every word of a help that names a subcommand's argument or option.
fn options(help: &str) -> impl Iterator<Item = &str> {
    help.split_whitespace()
        .filter(|word| word.starts_with("--") || word.starts_with('<'))
        .map(|word| word.trim_end_matches([',', ']']))
}

#[test]
fn the_manual_page_has_what_the_help_has() {
    let page = answer(&["man"]);
    assert_eq!(page.status.code(), Some(0));
    let page = text(&page.stdout).replace("\\-", "-");
    for subcommand in WITH_WIDTH.into_iter().chain(WITHOUT_WIDTH) {
        let help = answer(&[subcommand, "--help"]);
        let help = text(&help.stdout);
        assert!(page.contains(&format!(".SS \"asmap {subcommand} ")), "{subcommand} is missing");
        assert!(options(help).count() >= 3, "{subcommand} has no arguments");
        options(help).for_each(|option| assert!(page.contains(option), "{option} of {subcommand} is missing"));
        let example = help.lines().last().expect("an example").trim();
        assert!(example.contains("asmap ") && page.contains(example), "the example of {subcommand} is missing");
        // The width, with what it is unless it is said, stands with the subcommands that take one.
        let section = page.split(".SS ").find(|section| section.starts_with(&format!("\"asmap {subcommand} "))).expect("a section");
        assert_eq!(section.contains("--width <BITS>") && section.contains("[default: 128]"), WITH_WIDTH.contains(&subcommand));
        assert_eq!(help.contains("--width <BITS>"), WITH_WIDTH.contains(&subcommand), "{subcommand}");
    }
}

#[test]
fn groff_takes_the_manual_page_without_a_warning() {
    if !is_there("groff") {
        return;
    }
    let folder = Folder::new();
    folder.write("asmap.1", answer(&["man"]).stdout);
    let groff = Command::new("groff").args(["-man", "-Tutf8", "-ww"]).arg(folder.path("asmap.1")).output().expect("groff runs");
    assert_eq!((groff.status.code(), text(&groff.stderr)), (Some(0), ""));
    assert!(text(&groff.stdout).contains("the answer is no"));
}

#[test]
fn completions_are_taken_by_their_shell() {
    for shell in ["bash", "elvish", "fish", "powershell", "zsh"] {
        let completions = answer(&["completions", shell]);
        assert_eq!(completions.status.code(), Some(0), "{shell}");
        assert!(text(&completions.stdout).contains("unchecked"), "{shell}");
    }
    let folder = Folder::new();
    folder.write("asmap.bash", answer(&["completions", "bash"]).stdout);
    let wanted = "source asmap.bash; COMP_WORDS=(asmap tr); COMP_CWORD=1; _asmap asmap tr asmap; echo \"${COMPREPLY[@]}\"";
    let bash = Command::new("bash").args(["-c", wanted]).current_dir(folder.path(".")).output().expect("bash runs");
    assert_eq!((text(&bash.stdout), text(&bash.stderr)), ("trace\n", ""));
    for subcommand in WITH_WIDTH.into_iter().chain(WITHOUT_WIDTH) {
        let words = format!("COMP_WORDS=(asmap {subcommand} --wi); COMP_CWORD=2; _asmap asmap --wi {subcommand}");
        let line = format!("source asmap.bash; {words}; echo \"${{COMPREPLY[@]}}\"");
        let bash = Command::new("bash").args(["-c", &line]).current_dir(folder.path(".")).output().expect("bash runs");
        let wanted = if WITH_WIDTH.contains(&subcommand) { "--width\n" } else { "\n" };
        assert_eq!((text(&bash.stdout), text(&bash.stderr)), (wanted, ""), "{subcommand}");
    }
}

#[test]
fn colour_is_for_terminals_and_not_where_no_color_is_set() {
    if !is_there("script") {
        return;
    }
    let folder = Folder::new();
    for command in
        ["check two.asmap cut.asmap", "walk two.asmap 1.2.3.4", "trace two.asmap 1.2.3.4", "undo-check two.asmap cut.asmap"]
    {
        assert!(on_a_terminal(&folder, command, None).contains("\x1b["), "{command}");
        assert!(on_a_terminal(&folder, command, Some("")).contains("\x1b["), "{command}: an empty NO_COLOR is none");
        assert!(!on_a_terminal(&folder, command, Some("1")).contains('\x1b'), "{command}: NO_COLOR");
        assert!(!on_a_terminal(&folder, &format!("--json {command}"), None).contains('\x1b'), "{command}: JSON");
        let words: Vec<&str> = command.split(' ').collect();
        assert!(!text(&folder.output(&words).stdout).contains('\x1b'), "{command}: a pipe is no terminal");
    }
}

#[test]
fn progress_is_shown_on_a_terminal_while_answers_go_elsewhere() {
    if !is_there("script") {
        return;
    }
    let folder = Folder::new();
    let seen = on_a_terminal(&folder, "check two.asmap two.asmap two.asmap > answers", None);
    assert!(seen.contains("of 3 maps"), "{seen:?}");
    let answers = std::fs::read_to_string(folder.path("answers")).expect("the answers");
    assert!(answers.lines().count() == 6 && !answers.contains('\x1b'));
    assert_eq!(on_a_terminal(&folder, "check two.asmap two.asmap two.asmap 2> messages | cat > answers", None), "");
    for elsewhere in ["> answers", "-o answers"] {
        let seen = on_a_terminal(&folder, &format!("list two.asmap {elsewhere}"), None);
        assert!(seen.contains("of 104 prefixes") && !seen.contains("AS0"), "{elsewhere}: {seen:?}");
        assert_eq!(std::fs::read(folder.path("answers")).expect("the answers"), folder.output(&["list", "two.asmap"]).stdout);
    }
    assert!(!on_a_terminal(&folder, "list two.asmap", None).contains("of 104 prefixes"));
}
