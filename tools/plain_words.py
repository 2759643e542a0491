"""What has to be believed for the first promise of README.md, in plain words: a line for each file of definitions.

Each part has a title, what it is of, the clauses or definitions that it is followed from, and for each file what its definitions
say. tools/statement.py writes them at the head of docs/STATEMENT.md. It finds fault where a definition that is followed stands in
a file without a line, or a line is of a file to which nothing leads.
"""

# The crates whose definitions say what a program does, each of which has one line.
MACHINE = {
    "bpf_isa": "which program bytes spell, by the encoding of RFC 9669",
    "machine": "what each instruction does, when a step is a fault, and what a run ends in; at which sectors it looks",
    "helpers": "what a program is told of the device: a sector, whether it is zeros, whether two are the same, its mix, its context",
    "checksums": "the checksums that a program may ask for",
    "lanes": "when two sectors are the same, one is zeros, and what the mix of one is",
    "interp": "an outcome of the code as an end of the machine",
}
REPORT = [("runs", "explore_with", "report"), ("workers", "lines_are_set", "")]
FOUND = [("case_runs", "losses_are_found", ""), ("case_runs", "their_images_fail", ""), ("case_runs", "found_cuts_are_wanted", "")]
PARTS = [
    (
        "The report of images",
        "The bytes are the text of every failing image that was asked for, and of no other. From the top down:",
        REPORT,
        {
            "runs.Explore": "the bytes are the report of a log and of programs: each file spells its program, and each failing image that is meant has its line, or the first alone with `--first`",
            "request.Source": "the log is the one that the file's bytes are, over what the device held before, with the flushes that were added. It has each entry and cut that was named",
            "request.Extents": "which images are meant with `--images`, and how many a run may have",
            "workers.Failing": "what is judged: a log, its wanted cuts, what departs as one, a bound, tears, and programs",
            "workers.Laws": "each line that fails stands there, no other does, and they are in order",
            "checker.Checker": "a program with its budget, and what it ends in on a device",
            "images.Images": "each byte of a crash image: that of the last write that reached it, else what the device held before",
            "images.Views": "what a program is told of a cut",
            "report.Report": "the text: a head, a line for each failing image and program, and totals",
            "report.Line": "what a line has: the image, its cut, the program, what it ended in, and what was lost or torn",
            "report.Images": "how many images some lines are of, and which is the first",
            "report.LineText": "a line to the byte",
            "report.ChoiceText": "`drop`, `head3` or `tail5`: what became of a part",
            "choices.Choices": "the fates of a part in their order, and how many images a run may have",
            "epochs.Plan": "a log with the kind of cuts and parts",
            "epochs.Units": "the sectors that an entry writes or discards, with their bytes; FUA; how many flushes and marks stand before a cut",
            "logfmt.Bounds": "what a log is: writes, discards, flushes and marks on a device of so many sectors, within the limits",
            "logfmt.LogText": "when bytes are the text of a log: a super block, and each entry with its header and data",
            "logfmt.Flags": "the bits of an entry's flags",
            "logfmt.Initial": "what the device held before entry 0, with zeros after its end",
            "base.Sizes": "the limits, without `--large` and with it",
            "base.Check": "the first of some tests that fails",
            "base.Causes": "the number of a cause",
            "base.Numbers": "numbers as bytes, the lowest first",
        },
    ),
    (
        "Every loss",
        "With `--bound any` each image that is asked for and on which a program fails is one of a case that was found, and on each image of such a case the program fails. Which cuts and images there are:",
        FOUND,
        {
            "case_runs.AnyLoss": "which choices are asked for: those of a wanted cut, with as few torn and lost parts as was asked; and the two directions of the law",
            "case_runs.Found": "what is found at each cut of each program: of the leaves of its tree those that fail, and how many cases were left out",
            "case_runs.Cuts": "at which cuts cases are looked for: the last ones of a range and its end, or each wanted one",
            "case_runs.Laws": "what a program ends in on the image of a choice",
            "case_runs.Judges": "a program by what it ends in and at which sectors it looks",
            "case_runs.Leaves": "the leaves that fail, by their numbers",
            "epochs.Cuts": "which cuts are wanted: all, those before a flush, or those after a mark, within a range",
            "epochs.Parts": "what is lost or torn as one: a sector, or a whole write",
            "choices.Picks": "in how many places a part may be torn",
            "images.Table": "the units of a sector",
            "cases.Risk": "which parts may be lost at a cut: no flush after their entry, and not forced with FUA, but for the last entry, which is in flight",
            "cases.Choices": "a choice says of each part that it is whole, lost or torn; and its image",
            "cases.Laws": "when a choice is in a case",
            "cases.Cases": "how a case is split by the first part that tells its images apart at the sectors at which the program looked",
            "cases.Trees": "the leaves of all choices of a cut, and which cases are left out as more is torn or lost in them than was asked",
            "cases.Rows": "which parts may show in a sector",
            "cases.Sets": "a set of fates as bits of a number",
            "cases.AtCut": "a case by the sets of the parts at risk at its cut",
            "cases.Search": "a leaf with what the program ends in there",
            "checker.Footprints": "at which sectors it looks",
            "losses.FoundCases": "a failing case: its number, what the program ends in, and its sets",
        },
    ),
    (
        "The text of cases",
        "The bytes are the text of what was found, and of nothing else:",
        ["runs.Cases.IsCases"],
        {
            "runs.Cases": "the bytes are the text of the cases of the log and of the programs that the files spell, and whether one fails",
            "runs.CaseCuts": "what is asked of losses, as options say it",
            "runs.Programs": "how a program is run: accepted by the verifier within its budget, or within `--checked`",
            "runs.Why": "the same options without `--first`",
            "case_text.Text": "the text: what was asked, a line for each failing case, and totals",
            "case_text.Known": "what a line says of the parts at risk: which are whole, of which more than one fate is possible",
            "case_text.Window": "before which entries a flush takes the case away",
            "choices.Named": "a lost or torn part by its name",
            "report.Text": "the words for cuts, parts and tears",
            "report.Words": "added flushes and the range of the cuts",
        },
    ),
]
