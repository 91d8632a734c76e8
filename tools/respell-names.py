#!/usr/bin/env python3
"""Brings the repository's own definitions, lemmas, record fields and constructors to the spelling of today's Rattle.

usage: python3 tools/respell-names.py            at the top of the repository, once, right behind
                                                 the kit's script (a second run then changes nothing)
       python3 tools/respell-names.py --look     writes nothing, and prints the names that would fall together

Functions, lemmas, fields and constructors are in snake case, types stay in upper camel case,
and a prime is an apostrophe.
Names of Rust code, of the libraries and of what the prover makes (behind `tie.`, step fields) stay.
It is for the tree that the kit's script left: run on answers by goal, it would rename goals that the check makes.
"""

import collections
import glob
import os
import re
import sys

# Names that would fall together with another in a file where both are seen:
# (module, "field" or "alias", old name) -> new name.
# The definition keeps the plain name and the lemma about it takes the ending.
TABLE = {
    ("Rattle.ahead.proofs.Meant", "all-able"): "all_able_law",
    ("Rattle.ahead.proofs.Meant", "best-to"): "best_to_law",
    ("Rattle.ahead.proofs.Meant", "sum-to"): "sum_to_law",
    ("Rattle.ahead.proofs.Shared", "taken-to"): "taken_to_law",
    ("Rattle.ahead.proofs.Shared", "taken_at"): "taken_at_law",
    ("Rattle.ahead.proofs.Shared", "values-to"): "values_to_law",
    ("Rattle.ahead.proofs.Spread", "best-at"): "best_at_law",
    ("Rattle.ahead.proofs.Spread", "bests-to"): "bests_to_law",
    ("Rattle.ahead.proofs.Spread", "mean-at"): "mean_at_law",
    ("Rattle.ahead.proofs.Spread", "means-to"): "means_to_law",
    ("Rattle.asking.proofs.AsWritten", "inOrder"): "in_order_of",
    ("Rattle.asking.proofs.AsWritten", "item-holds"): "item_holds_law",
    ("Rattle.asking.proofs.Claims", "first-unfit"): "first_unfit_law",
    ("Rattle.asking.proofs.Fitting", "each-due"): "each_due_law",
    ("Rattle.asking.proofs.Fitting", "is-everyone"): "is_everyone_law",
    ("Rattle.asking.proofs.Looking", "mixed-word"): "mixed_word_law",
    ("Rattle.card.proofs.LaidBack", "statement-row"): "statement_row_law",
    ("Rattle.card_promises.proofs.CardMarks", "set-marks"): "set_marks_law",
    ("Rattle.card_promises.proofs.CardMarks", "shared-marks"): "shared_marks_law",
    ("Rattle.card_promises.proofs.CardMarks", "units_in"): "units_in_law",
    ("Rattle.card_promises.proofs.CardMarks", "weight-marks"): "weight_marks_law",
    ("Rattle.chances.proofs.Rows", "row_first"): "row_first_law",
    ("Rattle.chances.proofs.Rows", "row_next"): "row_next_law",
    ("Rattle.classes.proofs.ClassesStage", "wrong-classes"): "wrong_classes_law",
    ("Rattle.converted_rows.proofs.Notes", "body-noted"): "body_noted_law",
    ("Rattle.converted_rows.proofs.Notes", "past_end"): "past_end_law",
    ("Rattle.converted_rows.proofs.Text", "bodies-noted"): "bodies_noted_law",
    ("Rattle.converted_rows.proofs.Text", "row-of"): "row_of_law",
    ("Rattle.converted_rows.proofs.Text", "rows-noted"): "rows_noted_law",
    ("Rattle.converted_rows.proofs.Text", "sizes-noted"): "sizes_noted_law",
    ("Rattle.deck.proofs.Looked", "is_live"): "is_live_law",
    ("Rattle.deck.proofs.Looked", "live-in"): "live_in_law",
    ("Rattle.deck.proofs.Looked", "live-row"): "live_row_law",
    ("Rattle.deck_writer.proofs.Putting", "deck-text"): "deck_text_law",
    ("Rattle.deck_writer.proofs.Putting", "left-text"): "left_text_law",
    ("Rattle.entry.proofs.Entries", "in-room"): "in_room_law",
    ("Rattle.entry.proofs.Entries", "in-rooms"): "in_rooms_law",
    ("Rattle.entry_promises.proofs.Spectator", "class-counts"): "class_counts_law",
    ("Rattle.gathering.proofs.KeptDeck", "kept-rows"): "kept_rows_law",
    ("Rattle.grammar.proofs.Reasons", "first-outside"): "first_outside_law",
    # under this name the file Rattle.reader.proofs.CardLaws imports another's lemma
    ("alias", "shape-of"): "shape_of_law",
    ("Rattle.grammar.proofs.Symmetry", "same_relation"): "same_relation_law",
    ("Rattle.grammar.proofs.Valid", "total-units"): "total_units_law",
    ("Rattle.group.proofs.Ahead", "next-is"): "next_is_law",
    ("Rattle.group.proofs.Ahead", "seat-next"): "seat_next_law",
    ("Rattle.group.proofs.Groups", "behind-first"): "behind_first_law",
    ("Rattle.group.proofs.Groups", "no-group"): "no_group_law",
    ("Rattle.group.proofs.Literals", "no-relation"): "no_relation_law",
    ("Rattle.guard_text.proofs.Laws", "has-and"): "has_and_law",
    ("Rattle.guard_text.proofs.Laws", "has-or"): "has_or_law",
    ("Rattle.guard_text.proofs.Laws", "needs-and"): "needs_and_law",
    ("Rattle.guard_text.proofs.Laws", "needs-or"): "needs_or_law",
    ("Rattle.guards.proofs.Stated", "values-in"): "values_in_law",
    ("Rattle.items.proofs.Answers", "as-shared"): "as_shared_law",
    ("Rattle.items.proofs.Answers", "judged-group"): "judged_group_law",
    ("Rattle.items.proofs.Opening", "no-item"): "no_item_law",
    ("Rattle.late.proofs.Settling", "weight-refusal"): "weight_refusal_law",
    ("Rattle.leaf_text.proofs.Laws", "bound-text"): "bound_text_law",
    ("Rattle.leaf_text.proofs.Laws", "counter-text"): "counter_text_law",
    ("Rattle.leaf_text.proofs.Laws", "first-seat"): "first_seat_law",
    ("Rattle.leaf_text.proofs.Laws", "group-text"): "group_text_law",
    ("Rattle.looks.proofs.Quick", "last-digit"): "last_digit_law",
    ("Rattle.marks.proofs.Starts", "step-at"): "step_at_law",
    ("Rattle.marks.proofs.Starts", "step_end"): "step_end_law",
    ("Rattle.marks_on_a_card.proofs.KindLaws", "one-per"): "one_per_law",
    ("Rattle.meaning.proofs.AddUp", "block-total"): "block_total_law",
    ("Rattle.meaning.proofs.Choices", "or-stay"): "or_stay_law",
    ("Rattle.meaning.proofs.Demand", "can-take"): "can_take_law",
    ("Rattle.meaning.proofs.Examples", "card-a"): "card_a_law",
    ("Rattle.meaning.proofs.Turns", "may-take"): "may_take_law",
    ("Rattle.mend.proofs.Accepting", "is-taken"): "is_taken_law",
    ("Rattle.mend.proofs.Judging", "by-card"): "by_card_law",
    ("Rattle.mend.proofs.Judging", "by-contents"): "by_contents_law",
    ("Rattle.mended_rooms.proofs.Listed", "line-by"): "line_by_law",
    ("Rattle.mended_rooms.proofs.Listed", "lines-by"): "lines_by_law",
    ("Rattle.mended_rooms.proofs.Text", "kept_by"): "kept_by_law",
    ("Rattle.mended_rooms.proofs.Text", "lines-for"): "lines_for_law",
    ("Rattle.mending.proofs.Kept", "card-right"): "card_right_law",
    ("Rattle.mending.proofs.MendStage", "some-kept"): "some_kept_law",
    ("Rattle.mending.proofs.Unchanged", "row-for"): "row_for_law",
    ("Rattle.mending.proofs.Unchanged", "rows-for"): "rows_for_law",
    ("Rattle.moves_text.proofs.Blocks", "by_place"): "by_place_law",
    ("Rattle.odds_said.proofs.Theorems", "after-nights"): "after_nights_law",
    ("Rattle.odds_said.proofs.Theorems", "after-seats"): "after_seats_law",
    ("Rattle.odds_said.proofs.Theorems", "after-vectors"): "after_vectors_law",
    ("Rattle.outline.proofs.Structs", "whole-of"): "whole_of_law",
    ("Rattle.panel.proofs.Examples", "card-a"): "card_a_law",
    ("Rattle.panel_said.proofs.Short", "shared-shown"): "shared_shown_law",
    ("Rattle.panel_said.proofs.Short", "stay-line"): "stay_line_law",
    ("Rattle.panel_wording.proofs.Laws", "shown-if"): "shown_if_law",
    ("Rattle.panel_wording.proofs.Moves", "pair-at"): "pair_at_law",
    ("Rattle.placing.proofs.Inserted", "new-bodies"): "new_bodies_law",
    ("Rattle.placing.proofs.Rows", "lower-rows"): "lower_rows_law",
    ("Rattle.positions.proofs.Passed", "or-one"): "or_one_law",
    ("Rattle.question.proofs.Claims", "up-to-most"): "up_to_most_law",
    ("Rattle.question.proofs.Whole", "too_long"): "too_long_law",
    ("Rattle.reader.proofs.CardLaws", "weight-refusal"): "weight_refusal_law",
    ("Rattle.reading.proofs.Numbers", "if-ahead"): "if_ahead_law",
    ("Rattle.reading.proofs.Numbers", "if-next"): "if_next_law",
    ("Rattle.reading.proofs.Numbers", "may-have"): "may_have_law",
    ("Rattle.reading.proofs.Numbers", "past-branches"): "past_branches_law",
    ("Rattle.reduced_text.proofs.Laws", "program-text"): "program_text_law",
    ("Rattle.rereading.proofs.Groups", "same_relation"): "same_relation_law",
    ("Rattle.rereading.proofs.Lexed", "in-word"): "in_word_law",
    ("Rattle.rounds.proofs.Begun", "guards-over"): "guards_over_law",
    ("Rattle.seating.proofs.Bytes", "bytes-due"): "bytes_due_law",
    ("Rattle.seating.proofs.Heads", "values-in"): "values_in_law",
    ("Rattle.seating.proofs.Judging", "judged-by"): "judged_by_law",
    ("Rattle.shared_text.proofs.Laws", "shared-text"): "shared_text_law",
    ("Rattle.statement_text.proofs.Both", "reduced-copies"): "reduced_copies_law",
    ("Rattle.term_literals.proofs.TermLaws", "no-term"): "no_term_law",
    ("Rattle.term_literals.proofs.TermLists", "relation-number"): "relation_number_law",
    ("Rattle.texts.proofs.Copies", "copy-text"): "copy_text_law",
    ("Rattle.texts.proofs.Copies", "over-or"): "over_or_law",
    ("Rattle.texts.proofs.Examples", "card-a"): "card_a_law",
    ("Rattle.texts.proofs.Examples", "one-seat"): "one_seat_law",
    ("Rattle.texts.proofs.WrittenShort", "first-seat"): "first_seat_law",
    ("Rattle.texts.proofs.WrittenShort", "written-room"): "written_room_law",
    ("Rattle.tidy.proofs.LiveDeck", "tidy-text"): "tidy_text_law",
    ("Rattle.tidying.proofs.Free", "number-free"): "number_free_law",
    ("Rattle.tidying.proofs.Refusals", "live-numbers"): "live_numbers_law",
    ("Rattle.tidying.proofs.Refusals", "place-numbers"): "place_numbers_law",
    ("Rattle.written_copy.proofs.Written", "number-spelt"): "number_spelt_law",
    ("field", "above-top"): "above_top_holds",
    ("field", "by-seats"): "by_seats_holds",
    ("field", "bytes-of"): "bytes_of_holds",
    ("field", "card-a"): "card_a_holds",
    ("field", "card-bytes"): "card_bytes_holds",
    ("field", "class-counts"): "class_counts_holds",
    ("field", "classes-room"): "classes_room_holds",
    ("field", "count-bytes"): "count_bytes_holds",
    ("field", "decimal-weight"): "decimal_weight_holds",
    ("field", "deck-bytes"): "deck_bytes_holds",
    ("field", "entry-bytes"): "entry_bytes_holds",
    ("field", "expansion-from"): "expansion_from_holds",
    ("field", "find-with"): "find_with_holds",
    ("field", "flag_at"): "flag_at_holds",
    ("field", "further-digits"): "further_digits_holds",
    ("field", "input-bytes"): "input_bytes_holds",
    ("field", "is-everyone"): "is_everyone_holds",
    ("field", "is-exactly-one"): "is_exactly_one_holds",
    ("field", "line-end"): "line_end_holds",
    ("field", "list-room"): "list_room_holds",
    ("field", "malformed-deck"): "malformed_deck_holds",
    ("field", "most-nights"): "most_nights_holds",
    ("field", "most-vectors"): "most_vectors_holds",
    ("field", "no-live-card"): "no_live_card_holds",
    ("field", "no-state"): "no_state_holds",
    ("field", "not-added"): "not_added_holds",
    ("field", "not-converted"): "not_converted_holds",
    ("field", "not-due"): "not_due_holds",
    ("field", "number_digits"): "number_digits_holds",
    ("field", "offset_at"): "offset_at_holds",
    ("field", "one-seat"): "one_seat_holds",
    ("field", "one_entry"): "one_entry_holds",
    ("field", "out-of-shape"): "out_of_shape_holds",
    ("field", "outside-rules"): "outside_rules_holds",
    ("field", "panel-room"): "panel_room_holds",
    ("field", "past-limit"): "past_limit_holds",
    ("field", "public-classes"): "public_classes_holds",
    ("field", "read_under"): "read_under_holds",
    ("field", "reduced-room"): "reduced_room_holds",
    ("field", "room-too-small"): "room_too_small_holds",
    ("field", "seat-above-top"): "seat_above_top_holds",
    ("field", "second-first"): "second_first_holds",
    ("field", "size-at"): "size_at_holds",
    ("field", "too-many-nights"): "too_many_nights_holds",
    ("field", "too-many-vectors"): "too_many_vectors_holds",
    ("field", "too_long"): "too_long_holds",
    ("field", "top-class"): "top_class_holds",
    ("field", "top-shared"): "top_shared_holds",
    ("field", "top-state"): "top_state_holds",
    ("field", "weight-digits"): "weight_digits_holds",
    ("field", "word-digits"): "word_digits_holds",
    ("field", "written-room"): "written_room_holds",
    ("field", "wrong-classes"): "wrong_classes_holds",
    ("field", "wrong-seats"): "wrong_seats_holds",
    ("field", "wrong-weight"): "wrong_weight_holds",
    ("field", "wrong_row"): "wrong_row_holds",
    ("field", "zero-byte-at"): "zero_byte_at_holds",
}

# In the files of Rust code a definition that has the name of something in the code is imported under another name:
# with this ending.
SAID = "_said"

# Words that no own name may become.
RESERVED = set(
    "record data open module package unfold elim axiom mutual abbrev ruleset unfolding unfoldable infix infixl infixr "
    "where do let in syntax deriving assumption ground rules search grind simp omega rw cc use pub as λ if then else "
    "break const continue crate enum extern false fn for impl loop match mod move mut ref return self "
    "static struct super trait true type unsafe while async await dyn abstract become box final macro override priv try typeof "
    "unsized virtual yield union result now old new pre post".split()
)

# In pages these are names of files, of commands or of Rust code, though a definition has the same name.
NOT_IN_PAGES = set("card-a card-a-stuck coin-toss leader-election".split())

WORD = re.compile(r'[^\s(){}.;,@"]+')
TEXT_WORD = re.compile(r'[^\s(){}.;,@"`:]+')
STRING = r'"(?:[^"\\\n]|\\.)*"'
TOKEN = re.compile(STRING + r'|[^\s(){}.;,@"]+')
BRACED = re.compile(STRING + r'|[(){};]|[^\s(){}.;,@"]+')
STEP = re.compile(r"\.(ensures|auto|result|before|true|false|given|requires|args)\b")
BRACKET = re.compile(STRING + r"|[(){}]")
OWN_PATH = re.compile(r"Rattle\.([a-z_0-9]+)\.(specs|proofs)\.")
MODIFIERS = {"abbrev", "unfoldable", "pub", "opaque", "private", "ground"}
LETTER = re.compile(r"[^\W\d_]")


# the older spelling of a name
OLDER = re.compile(r"[^\W\d_][-′]|^[a-zμ].*[A-Z]|^[A-Z].*-")


def read(path):
    with open(path, encoding="utf-8") as f:
        return f.read()


def respelled(name, kind):
    """The name in today's spelling; kind is 'type' for records and data, else 'value'."""
    name = name.replace("′", "'")
    upper = name[:1].isupper()
    if kind == "type" or (upper and "-" not in name):
        return "".join(p[:1].upper() + p[1:] for p in name.split("-"))
    name = name.replace("-", "_")
    name = re.sub(r"(?<=[a-z0-9₀-₉'])([A-Z])", r"_\1", name)
    return name.lower() if LETTER.search(name) else name


def comment_at(line):
    """Where the comment of a line begins, or its length."""
    m = re.search(r"(^|(?<=\s))--(?=\s|$)", line)
    return m.start() if m else len(line)


def balanced(text, i):
    """Behind the bracket that opens at i, or None where it isn't closed."""
    depth = 0
    for m in BRACKET.finditer(text, i):
        if m.group() in "({":
            depth += 1
        elif m.group() in ")}":
            depth -= 1
            if depth == 0:
                return m.end()
    return None


def declared(line):
    """The names that a line of antt declares, each with its kind."""
    m = re.match(r"\s*(?:pub )?(record|data) ([^\s(){}.;,@\"]+)", line)
    if m:
        return [(m.group(2), "type")]
    i = len(line) - len(line.lstrip())
    names = []
    while True:
        m = WORD.match(line, i)
        if not m:
            break
        w = m.group()
        if w == ":":
            return [(n, "value") for n in names]
        if not names and w in MODIFIERS:
            pass
        elif w in RESERVED or not LETTER.match(w[:1]) and w[:1] not in "μ+":
            return []
        else:
            names.append(w)
        i = m.end()
        while i < len(line) and line[i] == " ":
            i += 1
    while names and i is not None and i < len(line) and line[i] in "({":
        i = balanced(line, i)
        while i is not None and i < len(line) and line[i] == " ":
            i += 1
    if names and i is not None and re.match(r":(\s|$)", line[i:]):
        return [(n, "value") for n in names]
    return []


def module_of(path):
    crate, kind, rest = re.match(r"crates/([^/]+)/(specs|proofs)/(.*)\.antt$", path).groups()
    return f"Rattle.{crate}.{kind}.{rest.replace('/', '.')}"


IMPORT = re.compile(r"(?m)^(\s*(?:pub )?(?:ghost )?(?:pub )?use )([^\s{};]+?)"
                    r"(?:\.\{([^}]*)\}| as ([^\s;]+))?(?=;|\s|$)")


class Tree:
    def __init__(self):
        self.texts = {}
        for p in sorted(glob.glob("crates/*/specs/**/*.antt", recursive=True)
                        + glob.glob("crates/*/proofs/**/*.antt", recursive=True)):
            self.texts[p] = read(p)
        self.path_of = {module_of(p): p for p in self.texts}
        self.decls = {}      # module -> {name: kind}
        self.fields = {}     # names of fields of own records, as the files spell them
        self.reexports = collections.defaultdict(dict)
        for p, text in self.texts.items():
            self.collect(p, text)
        self.known = {name for here in self.decls.values() for name in here}

    def collect(self, path, text):
        module = module_of(path)
        here = self.decls[module] = {}
        for m in IMPORT.finditer(text):
            if "pub use" in m.group(1) and m.group(3) is not None:
                for name, alias in imported(m.group(3)):
                    self.reexports[module][alias or name] = (m.group(2), name)
        if path.endswith("/Proof.antt"):
            return
        record = None
        for line in text.split("\n"):
            line = line[:comment_at(line)]
            if not line.strip():
                continue
            indent = len(line) - len(line.lstrip())
            if record is not None and indent <= record:
                record = None
            for name, kind in declared(line):
                here.setdefault(name, kind)
                if record is not None:
                    self.fields.setdefault(name, path)
                    here[name] = "field"
            if re.match(r"\s*(?:pub )?record ", line):
                record = indent

    def source(self, module, name, depth=0):
        """The module that declares a name which is imported from a module, or None."""
        if name in self.decls.get(module, {}):
            return module, name
        if depth < 9 and name in self.reexports.get(module, {}):
            return self.source(*self.reexports[module][name], depth + 1)
        return None

    def new_name(self, module, name):
        if (module, name) in TABLE:
            return TABLE[(module, name)]
        if self.decls[module][name] == "field":
            return self.new_field(name)
        return respelled(name, self.decls[module][name])

    def new_field(self, name):
        return TABLE.get(("field", name)) or respelled(name, "value")


def imported(inside):
    out = []
    for item in re.sub(r"--[^\n]*", "", inside).split(","):
        words = item.split()
        if words:
            out.append((words[0], words[2] if len(words) == 3 and words[1] == "as" else None))
    return out


class Names:
    """What the tokens of one file stand for: plain names, names of modules, and the file's imports."""

    def __init__(self, tree, path, text):
        self.tree, self.path = tree, path
        self.plain = {}        # token -> new token, own names only
        self.modules = {}      # alias -> module
        self.aliases = {}      # module alias -> new alias
        self.origin = {}
        self.lib = set()
        rust = path.endswith(".rt")
        for m in IMPORT.finditer(text):
            if rust and "ghost" not in m.group(1):
                continue
            module, inside, alias = m.group(2), m.group(3), m.group(4)
            if inside is None:
                short = alias or module.split(".")[-1]
                if module in tree.decls:
                    self.modules[short] = module
                if alias and alias != "tie":
                    self.aliases[alias] = respelled(alias, "value")
                continue
            for name, other in imported(inside):
                at = tree.source(module, name)
                if at is None:
                    self.lib.add(other or name)
                    if other and not path.endswith("/Proof.antt"):
                        self.plain[other] = TABLE.get(("alias", other)) or respelled(other, "value")
                    continue
                if other:
                    self.plain[other] = TABLE.get(("alias", other)) or respelled(other, "value")
                    self.origin[other] = at
                else:
                    self.plain[name] = tree.new_name(*at)
                    self.origin[name] = at
        if not rust and path in tree.texts:
            module = module_of(path)
            for name in tree.decls[module]:
                self.plain[name] = tree.new_name(module, name)
                self.origin[name] = (module, name)


def tokens(text):
    return (m for m in TOKEN.finditer(text) if m.group()[0] != '"')


def rewrite_code(text, names, tree, path, state=None):
    """A piece of antt code without comments and imports, with its own names respelled; tokens go to state, if any."""
    out, last = [], 0
    proof = path.endswith("/Proof.antt")
    # which braces hold the fields of a record
    frames, braces, before = [], {}, None
    for m in BRACED.finditer(text):
        w = m.group()
        if w in "({":
            frames.append(w == "{" and before == "record")
        elif w in ")}":
            if frames:
                frames.pop()
        elif w != ";":
            if frames and frames[-1] and before in ("{", ";") and re.compile(r"\s*=(\s|$)").match(text, m.end()):
                braces[m.start()] = True
        before = w
    prev = None
    for m in tokens(text):
        w, i = m.group(), m.start()
        new = w
        if i and text[i - 1] == ".":
            prefix = prev.group() if prev and prev.end() == i - 1 else ""
            dotted_before = prefix and prev.start() and text[prev.start() - 1] == "."
            if prefix in names.modules and not dotted_before:
                at = tree.source(names.modules[prefix], w)
                if at:
                    new = tree.new_name(*at)
                kind = "qualified"
            elif re.match(r"[^\s]", text[i - 2:i - 1]) and w in tree.fields:
                new, kind = tree.new_field(w), "field"
                if proof and STEP.match(text, m.end()):
                    new = w
            elif w in tree.fields:
                # `λ x. name` has a space behind the dot; ` .name` is the older form of a field
                new, kind = tree.new_field(w), "field"
            else:
                kind = "field"
        elif i in braces:
            new, kind = (tree.new_field(w) if w in tree.fields else w), "label"
        elif w in names.plain:
            new, kind = names.plain[w], "plain"
        elif w in names.aliases:
            new, kind = names.aliases[w], "plain"
        else:
            kind = "plain"
        if state is not None:
            state.append((kind, w, new))
        out += [text[last:i], new]
        last, prev = m.end(), m
    out.append(text[last:])
    return "".join(out)


def rewrite_comment(text, names, spans):
    def one(m):
        inner = m.group()
        return TEXT_WORD.sub(lambda t: shown_word(inner, t, names.plain, names.tree), inner)

    return re.sub(spans, one, text)


def shown_word(text, m, plain, tree):
    """A word of a comment or page: behind a dot it is a field."""
    w = m.group()
    if m.start() > 1 and text[m.start() - 1] == "." and w in tree.fields:
        if OLDER.search(w) or re.search(r"\b[A-Z]\w*\.$", text[:m.start()]):
            return tree.new_field(w)
        if OLDER.search(w):
            new = respelled(w, "value")
            return new if new in tree.fields else w
        return w
    return plain.get(w, w)


def rewrite_import(m, names, tree, state):
    head, module, inside, alias = m.groups()
    whole = m.group()
    if inside is None:
        if alias and alias in names.aliases:
            return whole[:len(whole) - len(alias)] + names.aliases[alias]
        return whole
    at = whole.index("{") + 1

    def item(t):
        words = t.group().split()
        name = words[0]
        where = tree.source(module, name)
        if where is None:
            shown = names.plain.get(words[-1], words[-1]) if len(words) == 3 else words[-1]
            state.append(("plain", words[-1], shown))
            return " ".join(words[:-1] + [shown])
        new = tree.new_name(*where)
        if len(words) == 3:
            shown = names.plain[words[2]]
            state.append(("plain", words[2], shown))
            return new if new == shown else f"{new} as {shown}"
        shown = names.plain[name]
        state.append(("plain", name, shown))
        return new if new == shown else f"{new} as {shown}"

    body = re.sub(r'[^\s,]+(?: as [^\s,]+)?', item, whole[at:-1])
    return whole[:at] + body + "}"


def rewrite_antt(text, names, tree, path, state):
    out, last = [], 0
    for m in IMPORT.finditer(text):
        out.append(rewrite_lines(text[last:m.start()], names, tree, path, state))
        out.append(rewrite_import(m, names, tree, state))
        last = m.end()
    out.append(rewrite_lines(text[last:], names, tree, path, state))
    return "".join(out)


def rewrite_lines(text, names, tree, path, state):
    """Code and comments in turn. The code is looked at as a whole, so that braces may hold comments."""
    comments, lines = [], []
    for line in text.split("\n"):
        i = comment_at(line)
        comments.append(rewrite_comment(line[i:], names, r"`[^`]*`|\([^()]*\)"))
        lines.append(line[:i])
    new = rewrite_code("\n".join(lines), names, tree, path, state).split("\n")
    return "\n".join(a + b for a, b in zip(new, comments))


CLAUSE = re.compile(r"(?m)(^\s*|\b)(requires|ensures|invariant|decreases|ghost)\b(?! use)[^{;\n]*\{")


def pieces(text):
    """The pieces of a file of Rust code: ('code' | 'ghost' | 'import' | 'comment', start, end)."""
    out, i, start = [], 0, 0

    def cut(kind, a, b):
        nonlocal start
        if start < a:
            out.append(("code", start, a))
        out.append((kind, a, b))
        start = b

    while i < len(text):
        if text.startswith("//", i):
            e = text.find("\n", i)
            e = len(text) if e < 0 else e
            cut("comment", i, e)
            i = e
        elif text[i] == '"':
            e = i + 1
            while e < len(text) and text[e] != '"':
                e += 2 if text[e] == "\\" else 1
            cut("string", i, e + 1)
            i = e + 1
        elif (i == 0 or not (text[i - 1].isalnum() or text[i - 1] == "_")) and text[i].isalpha():
            m = re.compile(r"(?:pub )?ghost use [^;]*;").match(text, i)
            if m:
                cut("import", i, m.end())
                i = m.end()
                continue
            m = CLAUSE.match(text, i)
            if m:
                e = balanced(text, m.end() - 1)
                if e is None:
                    raise SystemExit(f"a clause without an end: {text[m.start():m.start() + 200]}")
                cut("ghost", m.end(), e - 1)
                i = e
                continue
            i = re.compile(r"\w+").match(text, i).end()
        else:
            i += 1
    if start < len(text):
        out.append(("code", start, len(text)))
    return out


def rust_names(text, parts):
    """The names that the Rust code of a file brings or binds, as far as a clause could mean them."""
    found = set()
    for kind, a, b in parts:
        if kind == "code":
            for m in re.finditer(r"(?<![\w.])([A-Za-z_]\w*)", re.sub(r"\.\.", "  ", text[a:b])):
                found.add(m.group(1))
    return found


def rewrite_rt(text, tree, path, state, said):
    parts = pieces(text)
    names = Names(tree, path, text)
    code = rust_names(text, parts)
    taken = set()
    for kind, a, b in parts:
        if kind == "ghost":
            taken |= {m.group() for m in tokens(text[a:b])}
    for old in sorted(names.plain):
        new = names.plain[old]
        if new != old and (new in code or (new in taken | names.lib | set(names.plain)) and new != old):
            names.plain[old] = new + SAID
            said.append((path, old, new + SAID))
    out = []
    for kind, a, b in parts:
        piece = text[a:b]
        if kind == "ghost":
            piece = rewrite_code(piece, names, tree, path, state)
        elif kind == "import":
            piece = IMPORT.sub(lambda m: rewrite_import(m, names, tree, state), piece)
        elif kind == "comment":
            piece = rewrite_comment(piece, names, r"`[^`]*`")
        elif kind == "code":
            for w in rust_names(piece, [("code", 0, len(piece))]):
                state.append(("rust", w, w))
        out.append(piece)
    return "".join(out), names


def rewrite_edit(text, tree, by_path, path, everywhere):
    """A file of edits: the lines of an edit are respelled as the file that the edit names."""
    crate = path.split("/")[1]
    out = []
    for edit in re.split(r"(?m)^(?=# )", text):
        m = re.search(r"(?m)^file: (\S+)", edit)
        target = f"crates/{crate}/{m.group(1)}" if m else None
        lines = edit.split("\n")
        mode = None
        for k, line in enumerate(lines):
            at = re.match(r"# refused at: (\S+) (.*)$", line)
            if at:
                names = by_path.get(f"crates/{crate}/{at.group(1)}")
                if names and not at.group(1).endswith("Proof.antt"):
                    shown = ".".join(loose(w, names) if k2 == 0 else loose_field(w, tree)
                                     for k2, w in enumerate(at.group(2).split(".")))
                    lines[k] = f"# refused at: {at.group(1)} {shown}"
                continue
            if line.startswith("#") or line.startswith("file:"):
                continue
            names = by_path.get(target)
            if not names:
                continue
            head = re.match(r"(old|new):", line)
            if head:
                mode = head.group(1)
            if target.endswith(".rt"):
                # a whole text of Rust code changes only inside its clauses
                if not re.search(r"\b(requires|ensures|ghost)\b|[≡≤≢⌜]", line):
                    continue
            k0 = head.end() if head else 0
            lines[k] = line[:k0] + edit_code(line[k0:], names, tree, target, everywhere)
        out.append("\n".join(lines))
    return "".join(out)


def loose(word, names):
    """An own name of a file, also in its older spelling: edits keep the older one."""
    if word in names.plain:
        return names.plain[word]
    if OLDER.search(word):
        new = respelled(word, "value")
        if new in names.plain:
            return names.plain[new]
    return word


def loose_field(word, tree):
    """A field in today's spelling, also from its older spelling."""
    if word in tree.fields:
        return tree.new_field(word)
    new = respelled(word, "value")
    return new if any(tree.new_field(f) == new for f in tree.fields) else word


def edit_code(text, names, tree, target, everywhere):
    i = comment_at(text)
    code = rewrite_code(text[:i], names, tree, target)
    known = set(names.plain.values())

    def one(m):
        w = m.group()
        if m.start() and code[m.start() - 1] == ".":
            return loose_field(w, tree)
        if w in known:
            return w
        new = loose(w, names)
        # an edit may bring in a name that the file itself does not see
        new = everywhere.get(w, w) if new == w else new
        small = respelled(w, "value")
        return small if new == w and OLDER.search(w) and small in tree.known else new

    return WORD.sub(one, code) + text[i:]


def rewrite_page(text, everywhere, tree):
    def span(m):
        inner = m.group()
        return TEXT_WORD.sub(lambda t: page_word(inner, t), inner)

    def page_word(inner, m):
        w = m.group()
        new = shown_word(inner, m, everywhere, tree)
        if new == w and OLDER.search(w) and w not in NOT_IN_PAGES:
            # the page still has a spelling that the files have left before
            small = respelled(w, "value")
            return small if small in tree.known else w
        return new

    out, fenced = [], False
    for line in text.split("\n"):
        if line.lstrip().startswith("```"):
            fenced = not fenced
        out.append(line if fenced else re.sub(r"`[^`]*`", span, line))
    return "\n".join(out)


def look(path, state, found):
    """Names of a file that would fall together."""
    by = collections.defaultdict(set)
    for kind, old, new in state:
        if kind in ("plain", "rust"):
            by[new].add(old)
            if new != old and new in RESERVED:
                found.append((path, new, {old, "RESERVED"}))
    for new, olds in by.items():
        if len(olds) > 1:
            found.append((path, new, olds))
    by = collections.defaultdict(set)
    for kind, old, new in state:
        if kind in ("field", "label"):
            by[new].add(old)
            if new != old and new in RESERVED - {"result", "old", "new", "now"}:
                found.append((path, "." + new, {old, "RESERVED"}))
    for new, olds in by.items():
        if len(olds) > 1:
            found.append((path, "." + new, olds))


def main(argv):
    dry = "--look" in argv
    if not os.path.exists("crates.txt"):
        print("run it at the top of the repository")
        return 2
    tree = Tree()
    written, found, said, by_path = {}, [], [], {}
    for path, text in tree.texts.items():
        names, state = Names(tree, path, text), []
        new = rewrite_antt(text, names, tree, path, state)
        look(path, state, found)
        by_path[path] = names
        if new != text:
            written[path] = new
    for path in sorted(glob.glob("crates/*/src/**/*.rt", recursive=True)):
        text, state = read(path), []
        new, names = rewrite_rt(text, tree, path, state, said)
        look(path, state, found)
        by_path[path] = names
        if new != text:
            written[path] = new
    # a name of a page is respelled where each own name of that spelling becomes the same
    all_names = collections.defaultdict(set)
    for module, here in tree.decls.items():
        for name in here:
            all_names[name].add(tree.new_name(module, name))
    for name in tree.fields:
        all_names[name].add(tree.new_field(name))
    everywhere = {}
    for name, news in all_names.items():
        new = min(news, key=lambda n: (n != respelled(name, "value"), n))
        if new != name and OLDER.search(name) and name not in NOT_IN_PAGES:
            everywhere[name] = new
    for path in sorted(glob.glob("crates/*/must-fail/*.edit")):
        text = read(path)
        new = rewrite_edit(text, tree, by_path, path, everywhere)
        if new != text:
            written[path] = new
    for path in sorted(glob.glob("docs/*.md") + glob.glob("docs/landings/*.md") + ["README.md"]):
        text = read(path)
        new = rewrite_page(text, everywhere, tree)
        if new != text:
            written[path] = new
    renamed = {(m, n) for m, here in tree.decls.items() for n in here if tree.new_name(m, n) != n}
    if dry:
        for path, new, olds in found:
            print(path, new, sorted(olds), [by_path[path].origin.get(o, ("-",))[0] for o in sorted(olds)], sep="\t")
        print(len(found), "fall together")
        for it in said:
            print("said", *it, sep="\t")
        return 0
    for path, text in written.items():
        with open(path, "w", encoding="utf-8") as f:
            f.write(text)
    print(f"names renamed: {len(renamed)} declarations, {len({n for _, n in renamed})} names")
    print(f"collisions resolved: {len(TABLE)} by the table, {len(said)} by an import under another name")
    print(f"files changed: {len(written)}")
    return 0


if __name__ == "__main__":
    raise SystemExit(main(sys.argv[1:]))
