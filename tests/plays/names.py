"""Every name of the definitions that the plays cite, by its module. A name that moves is changed here alone."""

IDS = "Rattle.tran_ids.specs"
REDO = "Rattle.redo_record.specs"
RULES = "Rattle.node_rules.specs"
LAWS = "Rattle.run_rules.specs"
RULES_DATA = f"{RULES}.Data"
DATA = f"{LAWS}.Data"
PROOFS = "Rattle.plays.proofs"

# what a play unfolds to compute what is printed
UNFOLDED = (
    ("Rattle.std.specs.Fmt", "digits"),
    (f"{IDS}.Numbers", "decimal hex8"),
    (f"{REDO}.Kept", "kept_after"),
    (f"{REDO}.Durable", "durable_after"),
    (f"{RULES}.Meaning", "checked examined written meant_over"),
    (f"{RULES}.Records", "applied stored_by"),
    ("Rattle.session_tree.specs.Tree", "weight step"),
    ("Rattle.stmt_run.specs.Run", "ran_over"),
    (f"{RULES}.Statement", "ran"),
    (f"{RULES}.Names", "way_of"),
    (f"{RULES}.Calls", "admit reply_of"),
    (f"{RULES}.Commit", "beyond next_on_decision next_on_ack next_on_forgotten"),
    (f"{RULES}.Recovery", "recovery"),
    (f"{RULES}.Force", "branch_to_force purge"),
    (f"{RULES}.Turn", "turn_of start_of status_of"),
    (f"{RULES}.Points", "passes point_of"),
    ("Rattle.pending_view.specs.Views", "pending_rows neighbor_rows"),
    ("Rattle.undo_view.specs.Views", "undo_rows"),
    ("Rattle.net_bag.specs.Net", "sent_on delivered lost cut_over joined stopped started"),
    (f"{LAWS}.Disks", "struck after_append"),
    (f"{LAWS}.Cuts", "cut_by"),
    (f"{LAWS}.Facts", "facts_after"),
    (f"{LAWS}.Past", "next"),
    (f"{LAWS}.Due", "due_of runs_on"),
    ("Rattle.report.specs.Refusals", "ora_texts dtx_texts"),
    (f"{LAWS}.Report", "report"),
)

# the words that may stand in a play, beside those of an opening
CITED = (
    ("Rattle.std.proofs.Common", "◌≡◌ ℕ true false List [] ◌∷◌ ◌++◌ Some None negsuc codes refl"),
    (f"{LAWS}.Report", "report"),
    ("Rattle.book.specs.Texts", "book_lines"),
    (RULES_DATA, "Place"),
    (DATA, "Command"),
    (
        f"{PROOFS}.Script",
        "place place_within column number_column number_key text_column text_key table link synonym here over"
        " num text repeated literal minus step sum set equal insert rows count commit commit_comment"
        " node at no_statement crash_keep crash_leave hold let_go pump pump_all played all_lines booked",
    ),
    (f"{PROOFS}.Playing", "playing"),
)

# the modules of variants that may stand in a play
VARIANTS = {
    RULES_DATA: "values terms signs conds picks stmts advices".split(),
    DATA: "kind_names commands".split(),
}

WORDS_OF_OPERATORS = {"◌≡◌": "≡", "◌∷◌": "∷", "◌++◌": "++"}


def imports(body):
    """The import lines that a text of plays needs."""
    words = words_of(body)
    lines = []
    for module, names in CITED:
        used = [name for name in names.split() if WORDS_OF_OPERATORS.get(name, name) in words]
        if used:
            lines.append(f"use {module}.{{{', '.join(used)}}}")
        lines += [f"use {module}.{name}" for name in VARIANTS.get(module, ()) if any(word.startswith(f"{name}.") for word in words)]
    return lines


def words_of(body):
    """The words of a text outside its comments and quoted texts."""
    lines = [line.replace('\\"', "") for line in body.split("\n") if not line.startswith("--")]
    outside = " ".join(piece for line in lines for piece in line.split('"')[::2])
    return set(outside.replace("(", " ").replace(")", " ").split())


def playing_text():
    """The file Playing.antt."""
    lines = ["-- What a play unfolds to compute what is printed.", "use Rattle.std.specs.Prelude.{⊤}"]
    lines += [f"use {module}.{{{', '.join(names.split())}}}" for module, names in UNFOLDED]
    names = " ".join(names for _, names in UNFOLDED)
    lines += ["", "unfoldable pub playing : ⊤", f"unfolding {names}", "playing = tt"]
    return "\n".join(lines) + "\n"
