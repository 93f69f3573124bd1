//! The answers of docs/RULES.md, R62 to R74: the one list that the wrapper speaks by, and that the header and README.md are held to.

/// A row: the number is its place in `ANSWERS`.
pub struct Row {
    /// What it means, in few words.
    pub meaning: &'static str,
    /// The position that the whole calls tell, as the header words it; none for the answers of streams alone.
    pub position: Option<&'static str>,
    /// The count that the whole calls tell.
    pub count: Option<&'static str>,
    /// What README.md says of the meaning after those words, and of the position, streams included.
    pub more: &'static str,
    pub positions: &'static str,
}

const fn whole(meaning: &'static str, position: &'static str, count: &'static str, more: &'static str, positions: &'static str) -> Row {
    Row { meaning, position: Some(position), count: Some(count), more, positions }
}

const fn of_streams(meaning: &'static str) -> Row {
    Row { meaning, position: None, count: None, more: "", positions: "0" }
}

const THAT_BYTE: &str = "that byte";
const BEFORE_IT: &str = "good bytes before it";

/// Answers 0 to 10.
pub const ANSWERS: [Row; 11] = [
    whole(
        "accepted or written",
        "length of the text",
        "bytes decoded; writing: length of the text",
        "; for a step, the whole piece taken",
        "length of the text; for a step or finish, all bytes taken so far",
    ),
    whole("no such alphabet or options", "0", "0", ": alphabet above 5, options above 31, or CASE with alphabet 0 or 1", "0"),
    whole(
        "too long",
        "reading: ZEM_LIMIT",
        "good bytes of the text's first ZEM_LIMIT bytes",
        ": the text has more than 16,777,216 bytes, or would have",
        "the limit when reading; the source byte refused in a writer's stream; 0 when writing whole",
    ),
    whole("no room", "0", "the room needed", "", "0 for whole calls; next untaken byte for a step; all bytes taken for a finish"),
    whole("foreign byte", THAT_BYTE, BEFORE_IT, "", THAT_BYTE),
    whole("pad in a wrong place", THAT_BYTE, BEFORE_IT, "", THAT_BYTE),
    whole("spare bits not zero", "first pad, or text's end", BEFORE_IT, "", "the first pad, or the text's end"),
    whole("digit or pad after padding", THAT_BYTE, BEFORE_IT, "", THAT_BYTE),
    whole("cut short", "text's end", "good bytes", "", "the text's end"),
    of_streams("a stream state that no calls give"),
    of_streams("stream already finished"),
];
