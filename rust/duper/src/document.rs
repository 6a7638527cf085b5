//! A text with its table and its journal.

use std::ops::Range;

use crate::node::{nodes, Kind, Node, Nodes};
use crate::{change, content, path, read, summary};
use crate::{Answer, Reason, Refusal, Summary, MAX_NODES, MAX_TEXT, ROW};

/// How far a [`Document`] may grow by corrections.
///
/// ```
/// use duper::{Document, Limits};
/// let limits = Limits { journal: 1 << 20, ..Limits::default() };
/// let document = Document::read_with("[1, null]", limits)?;
/// # Ok::<(), duper::Refusal>(())
/// ```
#[derive(Debug, Clone, Copy, PartialEq, Eq, Hash)]
pub struct Limits {
    /// The longest text, in bytes. 65,536 at the most; a text that is longer
    /// than this when it is read may stay as long as it is.
    pub text: usize,
    /// The longest journal, in bytes. Each correction takes the length of the
    /// value it replaces, and 12. A journal that comes with the text may stay
    /// as long as it is.
    pub journal: usize,
    /// The most nodes, 4,096 at the most.
    pub nodes: usize,
}

impl Default for Limits {
    /// A text of 65,536 bytes, 4,096 nodes, and a journal that is as long as
    /// it needs to be.
    fn default() -> Limits {
        Limits { text: MAX_TEXT, journal: usize::MAX, nodes: MAX_NODES }
    }
}

/// A text that was taken, the table of its nodes, and the journal of the
/// corrections made to it.
///
/// ```
/// let document = duper::Document::read(r#"{height: null, "rig": "north"}"#)?;
/// let root = document.root().expect("a document has a root");
/// let height = document.member(root, "height").expect("it has a height");
/// assert!(height.is_null());
/// assert_eq!(height.integer(), None);
/// # Ok::<(), duper::Refusal>(())
/// ```
///
/// [`correct`](Document::correct) replaces one value, and
/// [`undo`](Document::undo) takes the latest correction back. Either leaves the
/// document as it was if it is refused. [`Node`]s are views of the reading
/// before, so a correction names its node by number:
///
/// ```
/// let mut document = duper::Document::read("[412.5, null]")?;
/// document.correct(2, "398")?;
/// assert_eq!(document.text(), b"[412.5, 398]");
/// document.undo()?;
/// assert_eq!(document.text(), b"[412.5, null]");
/// # Ok::<(), duper::Refusal>(())
/// ```
///
/// Spaces and whole comments beside a token, line comments with their line
/// feed, are no data: with them or without, the nodes are the same, and only
/// places differ.
///
/// ```
/// let plain = duper::Document::read("[412.5, null]")?;
/// let annotated = duper::Document::read("[ // wet\n412.5, /* lost */ null]")?;
/// for (one, other) in plain.nodes().zip(annotated.nodes()) {
///     assert_eq!((one.number(), one.parent()), (other.number(), other.parent()));
///     assert_eq!((one.kind(), one.decimal()), (other.kind(), other.decimal()));
/// }
/// assert_eq!((plain.len(), annotated.len()), (3, 3));
/// # Ok::<(), duper::Refusal>(())
/// ```
#[derive(Debug, Clone, PartialEq, Eq)]
pub struct Document {
    /// The text in use and nothing more; likewise the other two. Room for a
    /// call is made before it, and what it leaves unused is cut off after it.
    text: Vec<u8>,
    journal: Vec<u8>,
    /// The rows of the nodes.
    table: Vec<u32>,
    limits: Limits,
}

impl Document {
    /// Reads a text, with no limits but the reader's own.
    pub fn read(text: impl Into<Vec<u8>>) -> Result<Document, Refusal> {
        Document::read_with(text, Limits::default())
    }

    /// Reads a text with room for so many nodes, 4,096 at the most.
    pub fn read_within(text: impl Into<Vec<u8>>, nodes: usize) -> Result<Document, Refusal> {
        Document::read_with(text, Limits { nodes, ..Limits::default() })
    }

    /// Reads a text; the limits hold for its corrections as well.
    pub fn read_with(text: impl Into<Vec<u8>>, limits: Limits) -> Result<Document, Refusal> {
        Document::read_with_journal(text, Vec::new(), limits)
    }

    /// Reads a text that was corrected before, and goes on with the journal of
    /// those corrections; both are as [`text`](Document::text) and
    /// [`journal`](Document::journal) gave them.
    ///
    /// Any journal may be handed in. It isn't looked at before an undo, which
    /// is refused where an entry doesn't fit the text.
    ///
    /// ```
    /// use duper::{Document, Limits};
    /// let mut document = Document::read("[412.5, null]")?;
    /// document.correct(2, "398")?;
    /// let (text, journal) = document.into_parts();
    ///
    /// let mut document = Document::read_with_journal(text, journal, Limits::default())?;
    /// document.undo()?;
    /// assert_eq!(document.text(), b"[412.5, null]");
    /// # Ok::<(), duper::Refusal>(())
    /// ```
    pub fn read_with_journal(
        text: impl Into<Vec<u8>>,
        journal: impl Into<Vec<u8>>,
        limits: Limits,
    ) -> Result<Document, Refusal> {
        let (text, journal) = (text.into(), journal.into());
        let limits = Limits {
            text: limits.text.max(text.len()),
            journal: limits.journal.max(journal.len()),
            nodes: limits.nodes,
        };
        let mut table = vec![0; words(&limits, text.len())];
        let count = read(&text, &mut table)?;
        table.truncate(count.saturating_mul(ROW));
        Ok(Document { text, journal, table, limits })
    }

    /// Puts a replacement in the place of a node's value, its identifier
    /// included. It must be one value from its first byte to its last; for node
    /// 0 one that can be the root.
    ///
    /// The numbers of nodes are those of the text as it stands, so a correction
    /// may give other nodes other numbers.
    pub fn correct(&mut self, node: usize, replacement: impl AsRef<[u8]>) -> Result<(), Refusal> {
        let replacement = replacement.as_ref();
        // An entry holds what was replaced, and 12 bytes.
        let entry = self.text.len().saturating_add(12);
        self.change(replacement.len(), entry, |text, used, journal, kept, table| {
            change::correct(text, used, journal, kept, table, node, replacement)
        })
    }

    /// Takes back the latest correction in force.
    pub fn undo(&mut self) -> Result<(), Refusal> {
        // What is put back stands in the journal.
        self.change(self.journal.len(), 0, change::undo)
    }

    /// Takes back all corrections in force and gives their number: the text is
    /// then the first one, byte for byte. A refusal can only come of a journal
    /// from elsewhere, or of limits tighter than those that the corrections were
    /// made with; the corrections taken back before it stay so.
    ///
    /// ```
    /// let mut document = duper::Document::read("[412.5, null]")?;
    /// document.correct(2, "398")?;
    /// document.correct(0, "[]")?;
    /// assert_eq!(document.undo_all(), Ok(2));
    /// assert_eq!(document.text(), b"[412.5, null]");
    /// # Ok::<(), duper::Refusal>(())
    /// ```
    pub fn undo_all(&mut self) -> Result<usize, Refusal> {
        let mut undone = 0;
        while self.is_corrected() {
            self.undo()?;
            undone += 1;
        }
        Ok(undone)
    }

    /// Whether a correction is in force, so that there is something to undo.
    pub fn is_corrected(&self) -> bool {
        !self.journal.is_empty()
    }

    /// Lends the three buffers to a call, with room for a text that is longer
    /// by `further` and a journal that is longer by `entry`, within the limits;
    /// then keeps of them what is in use.
    fn change(
        &mut self,
        further: usize,
        entry: usize,
        call: impl FnOnce(&mut [u8], usize, &mut [u8], usize, &mut [u32]) -> Answer,
    ) -> Result<(), Refusal> {
        let (used, kept) = (self.text.len(), self.journal.len());
        // No answer depends on more room than this: a text is at most the sum
        // of what it was and what it gained.
        let room = used.saturating_add(further).min(self.limits.text.min(MAX_TEXT)).max(used);
        self.text.resize(room, 0);
        self.journal.resize(kept.saturating_add(entry).min(self.limits.journal).max(kept), 0);
        self.table.resize(words(&self.limits, room), 0);
        let answer = call(&mut self.text, used, &mut self.journal, kept, &mut self.table);
        self.text.truncate(answer.used);
        self.journal.truncate(answer.kept);
        self.table.truncate(answer.nodes.saturating_mul(ROW));
        answer.outcome
    }

    /// The text as it stands.
    pub fn text(&self) -> &[u8] {
        &self.text
    }

    /// The journal: an entry for each correction in force.
    pub fn journal(&self) -> &[u8] {
        &self.journal
    }

    /// The text and the journal, to be kept; see
    /// [`read_with_journal`](Document::read_with_journal).
    pub fn into_parts(self) -> (Vec<u8>, Vec<u8>) {
        (self.text, self.journal)
    }

    /// The table's rows, twelve words for each node.
    pub fn table(&self) -> &[u32] {
        &self.table
    }

    /// How many nodes there are, the root included.
    #[allow(clippy::len_without_is_empty)]
    pub fn len(&self) -> usize {
        self.table.len() / ROW
    }

    /// All nodes, in the order of their first byte.
    pub fn nodes(&self) -> Nodes<'_> {
        nodes(&self.table)
    }

    /// The node with this number.
    pub fn node(&self, number: usize) -> Option<Node<'_>> {
        Node::of_table(&self.table, number)
    }

    /// The root; there always is one.
    pub fn root(&self) -> Option<Node<'_>> {
        self.node(0)
    }

    /// The container that a node stands in; `None` for the root.
    pub fn parent(&self, node: Node<'_>) -> Option<Node<'_>> {
        self.node(node.parent()?)
    }

    /// The values directly in this one, in order; none if it is no container.
    pub fn children(&self, node: Node<'_>) -> Children<'_> {
        let (from, to) = match node.children() {
            Some(_) => (node.number().saturating_add(1), node.next()),
            None => (0, 0),
        };
        Children { table: &self.table, from, to }
    }

    /// The members of an object in order, each with its key's content; none if
    /// it is no object.
    ///
    /// ```
    /// let document = duper::Document::read(r#"{ball: 1, "h\x65ight": null}"#)?;
    /// let root = document.root().expect("a document has a root");
    /// let keys: Vec<_> = document.members(root).map(|(key, _)| key).collect();
    /// assert_eq!(keys, [&b"ball"[..], b"height"]);
    /// # Ok::<(), duper::Refusal>(())
    /// ```
    pub fn members(&self, object: Node<'_>) -> Members<'_> {
        Members { document: self, children: self.children(object) }
    }

    /// The member of an object whose key has this content.
    pub fn member(&self, object: Node<'_>, key: impl AsRef<[u8]>) -> Option<Node<'_>> {
        let key = key.as_ref();
        self.members(object).find(|(found, _)| found == key).map(|(_, node)| node)
    }

    /// The node that a path leads to from the root; see [`find`](crate::find)
    /// for what a path is.
    ///
    /// ```
    /// let season = r#"{
    ///     rig: "north",
    ///     balls: [{}, {}, {}, Ball({height_mm: 412.5})],
    /// }"#;
    /// let document = duper::Document::read(season)?;
    /// let height = document.find("balls.3.height_mm")?;
    /// assert_eq!(document.written(height), Some(&b"412.5"[..]));
    /// # Ok::<(), duper::Refusal>(())
    /// ```
    ///
    /// A step is a key's content, and not the key as it is written:
    ///
    /// ```
    /// let document = duper::Document::read(r#"{"h\x65ight": 398}"#)?;
    /// assert_eq!(document.find("height")?.integer(), Some(398));
    /// assert!(document.find(r#""h\x65ight""#).is_err());
    /// # Ok::<(), duper::Refusal>(())
    /// ```
    ///
    /// The refusal is 23 if a step has no child to go to, and names the first
    /// such step, counted from 0:
    ///
    /// ```
    /// let document = duper::Document::read("{balls: [{height_mm: null}]}")?;
    /// assert!(document.find("balls.0.height_mm")?.is_null());
    /// let refusal = document.find("balls.1.height_mm").unwrap_err();
    /// assert_eq!((refusal.number, refusal.step()), (23, Some(1)));
    /// # Ok::<(), duper::Refusal>(())
    /// ```
    ///
    /// No other refusal comes up, as the text of a document was taken. So a value
    /// can be corrected by its path:
    ///
    /// ```
    /// let mut document = duper::Document::read("{heights: [412.5, null]}")?;
    /// let lost = document.find("heights.1")?.number();
    /// document.correct(lost, "398")?;
    /// assert_eq!(document.text(), b"{heights: [412.5, 398]}");
    /// # Ok::<(), duper::Refusal>(())
    /// ```
    ///
    /// The text is read for each call anew, into a table lent for it.
    pub fn find(&self, path: impl AsRef<[u8]>) -> Result<Node<'_>, Refusal> {
        let mut table = vec![0; self.table.len()];
        let number = path::find(&self.text, &mut table, path.as_ref())?;
        // It is a node of the text's reading, which the document's table is.
        let none = Refusal { number: Reason::NoSuchNode.number(), place: 0 };
        self.node(number).ok_or(none)
    }

    /// The season's summary of a text whose root is an array of objects, its
    /// records; see [`summary`](crate::summary()) for what is counted.
    ///
    /// ```
    /// let mut document = duper::Document::read(
    ///     "Season([
    ///         {ball: 1, height_mm: 412.5},
    ///         {ball: 2, height_mm: null}, // lost sight of it
    ///         {ball: 3, height_mm: 0},    // measured: it did not rise
    ///         {ball: 4},
    ///     ])",
    /// )?;
    /// let season = document.summary()?;
    /// assert_eq!((season.counts.measured, season.counts.null), (2, 1));
    /// assert_eq!((season.counts.absent, season.counts.unfit), (1, 0));
    /// let heights = season.heights.expect("two are measured");
    /// assert_eq!((heights.least, heights.greatest), (0.0, 412_500.0));
    /// assert_eq!(heights.mean, 206_250.0);
    ///
    /// // It is that of the text as it stands.
    /// let lost = document.find("1.height_mm")?.number();
    /// document.correct(lost, "398")?;
    /// assert_eq!(document.summary()?.counts.measured, 3);
    /// document.undo()?;
    /// assert_eq!(document.summary()?, season);
    /// # Ok::<(), duper::Refusal>(())
    /// ```
    ///
    /// The refusal is 21 if the root is no array, or an element of it no object;
    /// [`Refusal::node`] is the number of that node. No other comes up, as the
    /// text of a document was taken.
    ///
    /// ```
    /// let document = duper::Document::read("{balls: [{height_mm: 398}]}")?;
    /// let refusal = document.summary().unwrap_err();
    /// assert_eq!((refusal.number, refusal.node()), (21, Some(0)));
    /// # Ok::<(), duper::Refusal>(())
    /// ```
    ///
    /// The text is read for each call anew, into a table lent for it.
    pub fn summary(&self) -> Result<Summary, Refusal> {
        let mut table = vec![0; self.table.len()];
        summary(&self.text, &mut table)
    }

    /// The content of a node's key; `None` if it has none.
    pub fn key(&self, node: Node<'_>) -> Option<Vec<u8>> {
        self.content(node.key_span()?).ok()
    }

    /// The content of a string; `None` if this is no string.
    pub fn string(&self, node: Node<'_>) -> Option<Vec<u8>> {
        self.content(node.string_span()?).ok()
    }

    /// The content of a text string, which is always UTF-8; `None` if this is
    /// no text string.
    pub fn text_string(&self, node: Node<'_>) -> Option<String> {
        match node.kind() {
            Kind::Text => String::from_utf8(self.string(node)?).ok(),
            _ => None,
        }
    }

    /// The name of a node's identifier; `None` if it has none.
    pub fn name(&self, node: Node<'_>) -> Option<&str> {
        std::str::from_utf8(self.text.get(node.name_span()?)?).ok()
    }

    /// A value as it is written, its identifier included. `None` only for a
    /// node of another document.
    pub fn written(&self, node: Node<'_>) -> Option<&[u8]> {
        self.text.get(node.span())
    }

    /// The content of the string or key that stands here in the text.
    pub fn content(&self, span: Range<usize>) -> Result<Vec<u8>, Refusal> {
        // A content is never longer than what is written. A span may hold any
        // numbers: never lend more than the text could need.
        let room = span.end.saturating_sub(span.start).min(self.text.len());
        let mut out = vec![0; room];
        let written = content(&self.text, span.start, span.end, &mut out)?;
        out.truncate(written);
        Ok(out)
    }
}

/// The length of a table for every node that a text of so many bytes can have:
/// a value takes at least a byte, so more rows than bytes are no use.
fn words(limits: &Limits, text: usize) -> usize {
    text.min(limits.nodes).min(MAX_NODES) * ROW
}

/// Lists a container's children; see [`Document::children`].
#[derive(Debug, Clone)]
pub struct Children<'d> {
    table: &'d [u32],
    from: usize,
    to: usize,
}

impl<'d> Iterator for Children<'d> {
    type Item = Node<'d>;

    fn next(&mut self) -> Option<Node<'d>> {
        if self.from >= self.to {
            return None;
        }
        let node = Node::of_table(self.table, self.from)?;
        // Always forward, whatever the row says.
        self.from = node.next().max(self.from + 1);
        Some(node)
    }
}

/// Lists an object's members; see [`Document::members`].
#[derive(Debug, Clone)]
pub struct Members<'d> {
    document: &'d Document,
    children: Children<'d>,
}

impl<'d> Iterator for Members<'d> {
    /// A key's content and its value.
    type Item = (Vec<u8>, Node<'d>);

    fn next(&mut self) -> Option<(Vec<u8>, Node<'d>)> {
        let node = self.children.next()?;
        // All members of an object have a key, and no others do.
        Some((self.document.key(node)?, node))
    }
}
