"""Questions of a new maintainer, each answered by looking up docs/ARCHITECTURE.md: where are the rule, its code and its proof?

A question names a row of the table `Where each rule is`. From the words of that row the files are found: of each definition its
page in specs/, of each function its file in src/ and the folder of proofs/ with what the prover asked for.
"""
import glob
import os
import re

from row import TOP, row

# The question; words of its row; and a definition, a function or law, and the folder of its proof that have to be found there (none
# where the prover asked for nothing).
QUESTIONS = [
    ("When does the scanner insert a semicolon?", "inserted semicolons", "go_scan/specs/Lex.antt: Semis", "go_scan/src/scanner.rt: scan", "go_scan/proofs/scanner/scan"),
    ("What is a line comment?", "blanks, comments", "go_scan/specs/Comments.antt: IsLineComment", "go_scan/src/scanner.rt: scan", "go_scan/proofs/scanner/scan"),
    ("When is a file nested too deeply?", "250 levels", "go_ast/specs/Heights.antt: file_height", "go_parse/src/parser.rt: parse", "go_parse/proofs/parser/parse"),
    ("Which parts of Go does the subset leave out at a token?", "faults 2, 3, 4", "go_ast/specs/LeftOut.antt: LeftOut", "go_pexpr/src/taking.rt: wrong", "go_parse/proofs/parser/parse"),
    ("How far may a constant be shifted?", "operators, shifts", "go_const/specs/Constants.antt: shift", "go_const/src/shift.rt: shift", ""),
    ("When may a value be assigned?", "may be assigned", "go_types/specs/Relations.antt: assignable", "go_types/src/relations.rt: assignable", ""),
    ("Which fault of a package is reported?", "or their first fault", "go_package/specs/Packages.antt: IsFaultOf", "go_check/src/check.rt: check", "go_check/proofs/check/check"),
    ("Why may an importer be checked against a summary?", "importers see", "go_check/specs/Names.antt: importable_by", "go_check/src/law.rt: law_by_summaries", "go_check/proofs/law/law_by_summaries"),
    ("In which order are a package's variables initialized?", "order of a package's variables", "go_init/specs/Variables.antt: variable_order", "go_init/src/variables.rt: variable_order", "go_init/proofs/variables/variable_order"),
    ("What does an expression mean?", "what a form means", "go_meaning/specs/Meaning.antt: eval", "go_meaning_laws/src/law.rt: law_typed_program_is_never_stuck", "go_meaning_laws/proofs/law/law_typed_program_is_never_stuck"),
    ("Why does an image do what its packages mean?", "its code", "go_gen/specs/Translation.antt: object_of", "go_translation_laws/src/law.rt: law_program_means_sources", "go_translation_laws/proofs/law/law_program_means_sources"),
    ("What does one instruction do?", "instructions and operators", "go_code/specs/Machine.antt: step", "go_vm/src/run.rt: run", "go_vm/proofs/run"),
    ("When can objects be linked?", "linking", "go_link/specs/Links.antt: Links", "go_link/src/link.rt: link", "go_link/proofs/link/link"),
    ("What does `goset run` print of a fault?", "`goset run` prints", "ws_run/specs/Printing.antt: complaint_of", "goset_cli/src/run.rt: run_program", "goset_cli/proofs/run/run_program"),
    ("Which words does the command line accept?", "which words are accepted", "goset_cli/specs/CommandLine.antt: option_faults", "goset_cli/src/words.rt: read_options", "goset_cli/proofs/words/read_options"),
    ("Why does an old text not come back after a removal?", "what a replica holds", "ws_version/specs/Writes.antt: held_cmp", "ws_register/src/lib.rt: law_removal_stays", "ws_register/proofs/law_removal_stays"),
    ("How many calls may be open at once?", "limits of an edition", "go_text/specs/Editions.antt: most_open", "go_text/src/edition.rt: most_open", ""),
    ("Which files belong to a package?", "files of a package", "ws_graph/specs/Packages.antt: package_files", "ws_graph/src/packages.rt: package_files", "ws_graph/proofs/packages/package_files"),
    ("What is hashed into the id of an action?", "what is hashed", "ws_action/specs/Actions.antt: action_text", "ws_action/src/lib.rt: text", "ws_action/proofs/Action/text"),
    ("Why do two workers not compile the same action?", "jobs, workers", "ws_board/specs/Machine.antt: IsHistory", "ws_board/src/lib.rt: take", "ws_board/proofs/Board/take"),
    ("How many packages does a build say it compiled?", "how many are compiled", "ws_cache/specs/Count.antt: compiled_count", "ws_replica/src/building.rt: build", "ws_replica/proofs/building/build"),
    ("When is a command refused?", "refusals", "ws_session/specs/World.antt: refusals", "ws_session/src/replicas.rt: step", "ws_session/proofs/replicas/Replicas/step"),
]


def table():
    """The rows of the table, by their first cells."""
    with open(os.path.join(TOP, "docs", "ARCHITECTURE.md"), encoding="utf-8") as page:
        text = page.read().partition("\n## Where each rule is\n")[2].partition("\n## ")[0]
    rows = [[it.strip() for it in line.strip("|").split(" |")] for line in text.split("\n") if line.startswith("| ")]
    return {cells[0]: cells[1:] for cells in rows[1:]}


def named(cell):
    """The names of a cell, each with the crate and the page that stand behind it in brackets."""
    for names, place in re.findall(r"((?:`[^`]+`(?:, )?)+) \((\w+(?:: \w+)?)\)", cell):
        crate, _, page = place.partition(": ")
        for name in re.findall(r"`([^`]+)`", names):
            yield crate, page, name


def found(words):
    """What a row that has these words leads to: definitions and functions as `FILE: NAME`, and folders of proofs."""
    cells = [cells for first, cells in table().items() if words in first]
    assert len(cells) == 1, f"{len(cells)} rows have {words!r}"
    rules, code, proofs = set(), set(), {""}
    for crate, page, name in named(cells[0][0]):
        path = os.path.join(TOP, "crates", crate, "specs", f"{page}.antt")
        with open(path, encoding="utf-8") as file:
            assert re.search(rf"(?m)^ *(?:\w+ )*pub (?:\w+ )?{name}\b", file.read()), f"{path} has no {name}"
        rules.add(f"{crate}/specs/{page}.antt: {name}")
    for crate, _, name in named(cells[0][1]):
        name = name.rpartition("::")[2]
        for path in glob.glob(os.path.join(TOP, "crates", crate, "src", "**", "*.rt"), recursive=True):
            with open(path, encoding="utf-8") as file:
                if re.search(rf"(?m)^ *pub(?:\(crate\))? (?:fn|struct|trait) {name}\b", file.read()):
                    code.add(f"{os.path.relpath(path, os.path.join(TOP, 'crates'))}: {name}")
        for path in glob.glob(os.path.join(TOP, "crates", crate, "proofs", "**", name), recursive=True):
            proofs.add(os.path.relpath(path, os.path.join(TOP, "crates")))
    return rules, code, proofs


@row
def questions_are_answered_by_architecture(room):
    for words in table():
        assert all(found(words)[:2]), f"the row {words!r} leads to no rule or to no code"
    for question, words, rule, code, proof in QUESTIONS:
        answers = found(words)
        for wanted, there in zip((rule, code, proof), answers):
            assert wanted in there, f"{question} {wanted} isn't among {sorted(there)}"
