//! Corrects a bounce height and takes the correction back.
//!
//! The rig lost sight of ball 2 and wrote `null`; the replay shows 38.5. Then
//! it turns out that the replay was of another ball.

use duper::{Document, Node, Reason, Refusal};

const SEASON: &str = "\
Season([
    { ball: 1, height: 412.5 },
    { ball: 2, height: null },  // lost sight of it
    { ball: 3, height: 0 },     // measured: it did not rise
])
";

/// The height of the record of this ball.
fn height(document: &Document, ball: i64) -> Option<Node<'_>> {
    let records = document.children(document.root()?);
    let mut records = records.filter(|record| {
        document.member(*record, "ball").and_then(|node| node.integer()) == Some(ball)
    });
    document.member(records.next()?, "height")
}

fn print(document: &Document) {
    print!("{}", String::from_utf8_lossy(document.text()));
    println!("-- {} nodes, {} bytes of journal\n", document.len(), document.journal().len());
}

fn main() -> Result<(), Refusal> {
    let mut document = Document::read(SEASON)?;
    print(&document);

    // A correction names its node by number, in the text as it stands.
    let Some(node) = height(&document, 2).map(|node| node.number()) else { return Ok(()) };
    document.correct(node, "Millimetres(38.5)")?;
    print(&document);

    // What isn't one value is refused, and nothing is changed.
    for slip in ["38.5, height: 40", "38.5 // replay", "38,5"] {
        match document.correct(node, slip) {
            Ok(()) => println!("{slip:?} was taken"),
            Err(refusal) => println!("{slip:?}: {refusal}"),
        }
    }
    println!();

    document.undo()?;
    print(&document);
    assert_eq!(document.text(), SEASON.as_bytes());

    // There is nothing more to take back.
    if let Err(refusal) = document.undo() {
        println!("{refusal}");
        assert_eq!(refusal.reason(), Some(Reason::NothingToUndo));
    }
    Ok(())
}
