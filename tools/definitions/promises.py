"""What is promised, and where each promise starts: the table that tools/trust reads. The rest is computed."""
from dataclasses import dataclass


@dataclass(frozen=True)
class Start:
    """A function or a type in a source (no name: each export), or a definition in a file of specs/; and one clause or one field of it,
    if not all."""

    file: str
    name: str
    part: str = ""


def functions(file, *names):
    return tuple(Start(file, name) for name in names)


# What the headline says, sentence by sentence.
HEADLINE = (
    ("Two valid histories of the same operations, whatever their order, have one text", Start("cotpad_run/src/whole.rt", "run", "same")),
    ("What a site shows is this text of its history, which `text` appends to `out`", Start("cot_site/src/site.rt", "text", "ok")),
    ("The history of each site is valid", Start("cot_site/src/site.rt", "known", "history")),
    ("This history is the list of the operations that the site integrated", Start("cot_site/specs/Sites.antt", "SiteData", "history")),
)


@dataclass(frozen=True)
class Promise:
    """What is promised beside the headline: in a word, in a sentence, and where it starts."""

    title: str
    says: str
    starts: tuple


LAWS, RUN, EXPORTS = "cot_site/src/laws.rt", "cotpad_run/src/whole.rt", "cotpad_c/src/exports.rt"
PROMISES = (
    Promise(
        "Verdicts",
        "Each delivery gets one verdict, the first case that holds, with its cause. An integrated operation becomes the last of the "
        "history, one that waits is held, and any other changes nothing.",
        functions("cot_site/src/site/deliveries.rt", "deliver") + functions(LAWS, "verdicts_are_exact", "integrated_operations_are_next"),
    ),
    Promise(
        "Releases",
        "What waits is released as soon as it is ready, and doesn't wait again; what was integrated stays.",
        functions("cot_site/src/site/releases.rt", "release_next", "settle")
        + functions(LAWS, "releases_are_exact", "releases_settle", "no_release_waits", "releases_keep_histories"),
    ),
    Promise(
        "Edits, undo and redo",
        "Each makes the operation of its definition, or is refused with the cause and changes nothing.",
        functions("cot_site/src/site/edits.rt", "insert", "delete", "undo", "redo") + functions(LAWS, "local_operations_are_next"),
    ),
    Promise(
        "Logs",
        "A log that is saved is loaded again, with the same history and what waits. Other bytes are refused by their first cause.",
        functions("session_log/src/writing.rt", "write_log")
        + functions("session_log/src/loading.rt", "load")
        + functions("session_log/src/laws.rt", "round_trip", "one_loading", "one_refusal"),
    ),
    Promise(
        "Exchanges",
        "Two sites at which nothing waits, and that know no name by different contents, show the same text after an exchange that isn't "
        "refused. A refusal has its cause.",
        functions("peer_exchange/src/offering.rt", "offer", "answer")
        + functions("peer_exchange/src/closing.rt", "close", "finish")
        + functions("peer_exchange/src/laws.rt", "unrefused_calls_join", "agreeing_sites_meet", "agreeing_sites_are_not_refused"),
    ),
    Promise(
        "`show`",
        "It writes the text of the history that a log gives, or the line that refuses the log.",
        (Start("log_replies/specs/Replies.antt", "IsShown"), Start(RUN, "run", "one_reply")),
    ),
    Promise(
        "`edit`",
        "It writes the log after an edit, or the line that refuses the log or the edit.",
        (Start("log_replies/specs/Replies.antt", "IsEdited"),),
    ),
    Promise(
        "`explain`",
        "It writes the steps that derive the form in which an operation was executed.",
        (Start("log_replies/specs/Explaining.antt", "IsExplained"), Start(RUN, "run", "one_explanation")),
    ),
    Promise(
        "`where`, `find`",
        "They write the line and the column of a place of the shown text, and the place that has these; no two places have the same.",
        (
            Start("log_replies/specs/Addressing.antt", "IsLocated"),
            Start("log_replies/specs/Addressing.antt", "IsFound"),
            Start("past_view/specs/Laws.antt", "OnePlace"),
        ),
    ),
    Promise(
        "`at`",
        "It writes the text that the operations of a set of members show, where the set is closed.",
        (Start("log_replies/specs/PastTexts.antt", "IsShownAt"),),
    ),
    Promise(
        "`playback`",
        "It writes the text after each operation of the history that a log gives.",
        (Start("log_replies/specs/PlayedTexts.antt", "IsPlayedBack"), Start("log_replies/specs/Answers.antt", "IsStreamed")),
    ),
    Promise(
        "`replay`",
        "It writes the report of a script, in which each `show` has the text of the history that its site has there.",
        (Start("cotpad_run/specs/Replaying.antt", "IsReplayed"),),
    ),
    Promise(
        "`gen`",
        "It writes what a generated session did, and how many of its sites show the text of the first.",
        (Start("cotpad_run/specs/Generating.antt", "IsGenerated"),),
    ),
    Promise(
        "`serve` and `join`",
        "They send the messages of an exchange, take in those of the peer, and write the log after that; or they say why not.",
        (Start("cotpad_run/specs/Meeting.antt", "IsMeeting"),),
    ),
    Promise(
        "`loop`",
        "It lets the two sites of a generated session exchange twice.",
        (Start("cotpad_run/specs/Looping.antt", "IsLoopAnswered"),),
    ),
    Promise(
        "Checkpoints",
        "A checkpoint is opened as a valid history; that of a history shows its text, and the same later operations may follow both, with "
        "the same verdicts. What is written is read again, and other bytes are refused by their first fault.",
        functions("flat_history/src/laws.rt", "checkpoints_are_valid", "histories_have_checkpoints", "flat_is_alike", "flat_extends")
        + functions("checkpoint/src/flattening.rt", "flatten")
        + functions("checkpoint_codec/src/reading.rt", "read_checkpoint")
        + functions("checkpoint_codec/src/writing.rt", "write_checkpoint"),
    ),
    Promise(
        "Marks",
        "A cell has the value of the last mark in force that covers it; and all orders of the same marks and undos give the same values.",
        functions("char_marks/src/reading.rt", "cell_values")
        + functions("char_marks/src/laws.rt", "last_mark_is_last", "any_order_is_one", "same_operations_same_values"),
    ),
    Promise(
        "All commands",
        "Each does what its row of the table of commands says, answers with its cause, and says what it leaves: all clauses of `run`.",
        functions(RUN, "run"),
    ),
    Promise(
        "From C: edits",
        "An edit is done, and followed by the releases; or a status says why not.",
        functions(
            EXPORTS, "cotpad_insert", "cotpad_delete", "cotpad_undo", "cotpad_redo", "cotpad_insert_text", "cotpad_delete_range",
            "cotpad_undo_range", "cotpad_redo_range",
        ),
    ),
    Promise(
        "From C: changes",
        "A host's own text becomes the shown one by the changes that are told since any moment of the history.",
        functions(EXPORTS, "cotpad_changes", "cotpad_text_range"),
    ),
    Promise(
        "From C: positions",
        "A place of the shown text is told by bytes, by units, or by a line and a column, and found by them; and each of many anchors "
        "has its place.",
        functions(
            EXPORTS, "cotpad_offset", "cotpad_place_at", "cotpad_line", "cotpad_line_place", "cotpad_anchor_place", "cotpad_anchor_places",
        ),
    ),
    Promise(
        "From C: deliveries",
        "A delivery tells its verdict, and what was released is told one by one.",
        functions(EXPORTS, "cotpad_receive", "cotpad_released", "cotpad_released_at", "cotpad_settle", "cotpad_release"),
    ),
    Promise(
        "From C: logs",
        "What is saved is loaded again, and a refused log tells why.",
        functions(EXPORTS, "cotpad_save", "cotpad_load"),
    ),
    Promise(
        "From C: exchanges",
        "The four calls make and take the messages of an exchange.",
        functions(EXPORTS, "cotpad_exchange_offer", "cotpad_exchange_answer", "cotpad_exchange_close", "cotpad_exchange_finish"),
    ),
    Promise(
        "From C: texts of the past",
        "The text before an operation, and at a set of operations, is that of these operations alone; or a status says why there is none.",
        functions(EXPORTS, "cotpad_text_before", "cotpad_text_at"),
    ),
    # All of them, so that none is left out.
    Promise(
        "From C: all exports",
        "A handle owns a site or nothing. The text is that of the definition, and so is all that a host asks of operations and characters.",
        (Start("cotpad_c/src/handle.rt", "CotpadSite"), Start(EXPORTS, "")),
    ),
)
