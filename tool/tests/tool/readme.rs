//! README.md: every example is run, and prints what stands there.
use crate::support::Bench;
use std::path::Path;
use std::process::{Command, Stdio};

/// The examples: a line that begins with `$`, and the lines of the same block that follow.
fn examples(page: &str) -> Vec<(String, String)> {
    let mut found: Vec<(String, String)> = Vec::new();
    let mut inside = false;
    for line in page.lines() {
        match (line.strip_prefix("    "), line.is_empty()) {
            (Some(text), _) => match text.strip_prefix("$ ") {
                Some(command) => {
                    found.push((command.to_string(), String::new()));
                    inside = true;
                }
                None if inside => found.last_mut().expect("a command").1.push_str(&format!("{text}\n")),
                None => {}
            },
            // An empty line may be one of the output's.
            (None, true) if inside => found.last_mut().expect("a command").1.push('\n'),
            (None, _) => inside = false,
        }
    }
    found
}

#[test]
fn every_example_prints_what_it_says() {
    let page = std::fs::read_to_string(Path::new(env!("CARGO_MANIFEST_DIR")).join("README.md")).expect("the page");
    let bench = Bench::new();
    let tools = Path::new(env!("CARGO_BIN_EXE_mfs")).parent().expect("a folder");
    let path = format!("{}:{}", tools.display(), std::env::var("PATH").expect("a path"));
    let examples = examples(&page);
    assert!(examples.len() > 30, "{} examples", examples.len());
    for (line, meant) in examples {
        let mut shell = Command::new("sh");
        shell.args(["-c", &format!("{{ {line}\n}} 2>&1")]).current_dir(&bench.folder).env("PATH", &path).env("NO_COLOR", "1");
        let output = shell.stdin(Stdio::null()).output().expect("a shell");
        let shown: Vec<String> =
            String::from_utf8_lossy(&output.stdout).lines().map(|line| line.trim_end().to_string()).collect();
        assert_eq!(shown.join("\n").trim_end(), meant.trim_end(), "$ {line}");
    }
}
