# Prints the figures of one part (-v part=table, terms, rules or standing) as a table. A line of figures: ROW ENGINE ENDING STEPS SECONDS STACK.
# reference=no: it was not run, and what was run ran under an emulator; maude empty: it was not run either.
{
    if (!($1 in seen) && $1 !~ /\/0$/) { seen[$1] = 1; rows[++n] = $1 }
    steps[$1, $2] = $4; bytes[$1, $2] = $6
    sample[$1, $2, ++samples[$1, $2]] = $5
    seconds[$1, $2] = median($1, $2)
}

# The median of a row's samples: the one that as many are under as over.
function median(row, engine,    i, j, under, count) {
    count = samples[row, engine]
    for (i = 1; i <= count; i++) {
        under = 0
        for (j = 1; j <= count; j++)
            if (sample[row, engine, j] < sample[row, engine, i] || (sample[row, engine, j] == sample[row, engine, i] && j < i)) under++
        if (under == int(count / 2)) return sample[row, engine, i]
    }
}

# What the calls of a row cost besides their questions. The month is 10,000 calls on the fee book.
function besides(row, engine) { return row == "month" ? 10000 * seconds["fees/0", engine] : seconds[row "/0", engine] }
function calls(row) { return row == "month" ? 10000 : 1 }
function rate(row, engine) { return seconds[row, engine] ? steps[row, engine] / seconds[row, engine] : 0 }
function net(row, engine,    s) { s = seconds[row, engine] - besides(row, engine); return s > 0 ? steps[row, engine] / s : 0 }
function over(a, row) { return a && rate(row, "maude") ? sprintf("%.3g", a / rate(row, "maude")) : "-" }
function step_ns(row, engine) { return net(row, engine) ? sprintf("%.1f", 1e9 / net(row, engine)) : "-" }
function microseconds(s) { return sprintf("%.1f", 1e6 * s) }
function stack(row, engine) { return bytes[row, engine] ? bytes[row, engine] : "-" }
function largest(row) { return (row, "words") in steps ? steps[row, "words"] : "-" }
function mean(row) { return (row, "words") in seconds ? seconds[row, "words"] : "-" }

function table_line(row, engine, says,    r, call, fixed, ratio) {
    if (!((row, engine) in seconds)) return
    r = rate(row, engine)
    call = microseconds(seconds[row, engine] / calls(row))
    fixed = engine == "maude" ? "-" : microseconds(besides(row, engine) / calls(row))
    ratio = engine == "maude" ? "-" : over(net(row, engine), row)
    printf table_form, row, says, steps[row, engine], largest(row), sprintf("%.2f", r / 1e6), over(r, row), call, fixed, ratio,
        stack(row, engine)
}

function table(    i) {
    print "Steps per second on the same questions."
    print "  f(6): figure 8. fees: a fee book with tiers, handlers and raises. month: 10,000 different questions to it, one call each."
    print "  largest: 64 rules in 8,161 bytes, the last function asked. <=: of 200 and 300. tiers: a fee of 300 by tiers of 100, with <="
    print "  and div. words: the largest term on the way."
    print "  Ours and the reference: cpu time of whole public calls, which read, check and translate the book each time; the median of"
    print "  three rounds. `besides` is what the question 0 to the same book costs, `net` the ratio to Maude without that."
    print "  Maude: the cpu time that it reports for rewriting (set show timing on), without its start, the book and the parsing; each"
    print "  question is asked so often in one `red` that its clock's tick does not matter. Its rewrites were compared with our steps."
    print "  stack: bytes of a painted stack that lost their paint."
    table_form = "%-9s %-19s %8s %6s %10s %8s %10s %8s %8s %8s\n"
    printf table_form, "question", "engine", "steps", "words", "M steps/s", "/Maude", "us a call", "besides", "net", "stack"
    for (i = 1; i <= n; i++) {
        table_line(rows[i], "evaluator", "our evaluator")
        table_line(rows[i], "rewriter", "our rewriter")
        table_line(rows[i], "reference-evaluator", "reference evaluator")
        table_line(rows[i], "reference-rewriter", "reference rewriter")
        table_line(rows[i], "maude", "Maude")
    }
}

function terms(    i, r, form, copy) {
    print "A rewriting step by the words of its term, in ns, without what the call costs besides."
    print "  under: its place is under succ signs. front: large values follow the place. behind: they stand before it. value: it walks"
    print "  through a large value. mean, most: words of the terms. copy: a plain memcpy of as many words as the row's name says."
    form = "%-12s %6s %6s %7s %9s %10s %8s %8s %9s %9s\n"
    printf form, "row", "mean", "most", "steps", "rewriter", "reference", "Maude", "copy", "/Maude", "stack"
    for (i = 1; i <= n; i++) {
        r = rows[i]
        copy = sprintf("%.1f", 1e9 * seconds[r, "copy"])
        printf form, r, mean(r), largest(r), steps[r, "rewriter"], step_ns(r, "rewriter"), step_ns(r, "reference-rewriter"),
            step_ns(r, "maude"), copy, over(net(r, "rewriter"), r), stack(r, "rewriter")
    }
}

# What a row's steps and its call cost: the parts `rules` and `standing`.
function step_rows(head,    i, r, form) {
    print "And what the public call costs besides its question, in us."
    form = "%-8s %8s %10s %10s %12s %12s\n"
    printf form, head, "steps", "evaluator", "rewriter", "ev. besides", "rw. besides"
    for (i = 1; i <= n; i++) {
        r = rows[i]
        printf form, r, steps[r, "rewriter"], step_ns(r, "evaluator"), step_ns(r, "rewriter"),
            microseconds(besides(r, "evaluator")), microseconds(besides(r, "rewriter"))
    }
}

function rules() {
    print "A step by the number of rules in the book, in ns: one function is asked, the other rules are those of functions before it."
    step_rows("rules")
}

function standing() {
    print "A step by the built-in that is called, in ns, each 1,024 times on 1 and 1; in the order of the standing list."
    print "  If finding a rule depended on how many stand before it, the times would grow down the columns. The kinds of step are not the"
    print "  same in each row: div and mod have the larger terms."
    step_rows("built-in")
}

END {
    if (reference == "no") print "On Arm all programs run as x86-64 programs under the same emulator. The reference is skipped" \
        (maude == "" ? ", and so is Maude: MAUDE_ROOT is not set." : ".")
    if (part == "table") table()
    if (part == "terms") terms()
    if (part == "rules") rules()
    if (part == "standing") standing()
    print ""
}
