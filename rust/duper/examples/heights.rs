//! Prints the bounce height of each record of a season, or `missing`.
//!
//! A height may be measured, `null` (the rig lost sight of the ball) or not
//! there at all. Neither of the last two is 0, and neither is printed as such.

use duper::{Document, Kind, Node};

const SEASON: &str = r#"
// Heights in millimetres.
Season([
    { ball: 1, height: 412.5 },
    { ball: 2, height: null },              // lost sight of it
    { ball: 3, height: 0 },                 // measured: it did not rise
    { ball: 4 },                            // the key is absent
    { ball: 5, "h\x65ight": Millimetres(38_0) },
    { ball: 6, height: 5.1e2, rig: "north" },
    { ball: 7, height: "tall" },
])
"#;

/// A height in words; `None` for one that is missing.
fn height(node: Node<'_>) -> Option<String> {
    match node.kind() {
        Kind::Null => None,
        Kind::Integer => node.integer().map(|whole| whole.to_string()),
        Kind::Decimal => node.decimal().map(|decimal| {
            let minus = if decimal.minus { "-" } else { "" };
            format!("{minus}{}e{}", decimal.digits, decimal.power)
        }),
        other => Some(format!("not a height ({other:?})")),
    }
}

fn main() -> Result<(), duper::Refusal> {
    let document = Document::read(SEASON.as_bytes())?;
    let Some(season) = document.root() else { return Ok(()) };
    for record in document.children(season) {
        let ball = document.member(record, b"ball").and_then(|node| node.integer());
        let ball = ball.map_or("?".to_string(), |number| number.to_string());
        let height = document.member(record, b"height").and_then(height);
        println!("ball {ball}: {}", height.as_deref().unwrap_or("missing"));
    }
    // The same key twice, once with an escape, is refused.
    let twice = r#"[{ height: 410, "h\x65ight": 420 }]"#;
    if let Err(refusal) = Document::read(twice.as_bytes()) {
        println!("{twice}: {refusal}");
    }
    Ok(())
}
