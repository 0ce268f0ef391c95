//! The bot's lines. `cargo test` builds it before it runs any test; with one test named (`--test bot`) it does not.

use std::process::Command;

#[test]
fn the_bot_keeps_members_apart() {
    let test = std::env::current_exe().expect("the test's own path");
    let built = test.ancestors().nth(2).expect("the folder of deps");
    let bot = built.join("examples").join("bot");
    let run = Command::new(bot).output().expect("the bot is built");
    assert!(run.status.success() && run.stderr.is_empty());
    let said = String::from_utf8(run.stdout).expect("text");
    let wanted = [
        "member 8 finished her colour: index 13",
        "member 7 still holds his half: index 12",
        "member 7: colour 454",
        "member 8: colour 57",
        "member 9 scrolls by 24 and 40",
        "member 10 has a damaged record: refused 18: a field of the record is out of its bounds (place 33)",
    ];
    assert_eq!(said.lines().collect::<Vec<_>>(), wanted);
}
