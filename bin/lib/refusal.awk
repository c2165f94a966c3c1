# What a refusal means, in words: the bytes of the input come as decimal numbers on standard input; NUMBER and PLACE are the refusal's,
# PAGE has the table of the numbers, SIZE is the length of the whole input (without it the table's row is all that is told), MOST says how
# many columns a line may have, ASKS is the command. Where the plan was given as a text, TEXT is that text and MAP has its records
# (lib/text.awk).
# The lines: number, place, the line of the text, the class or event with the bytes of its record and the wrong field in [ ], what is wrong
# with it, what was good before it, what to do.
function say(text,    word, n, i, now) {
    n = split(text, word, " ")
    now = word[1]
    for (i = 2; i <= n; i++) {
        if (length(now) + 1 + length(word[i]) > most) { print now; now = "  " word[i] } else now = now " " word[i]
    }
    print now
}
function list(one, more, to) { return to == 1 ? one " 1" : more " 1 " (to == 2 ? "and" : "to") " " to }
function value(at, count,    n) { n = 0; while (count-- > 0) n = n * 256 + byte[at++]; return sprintf("%.0f", n) }
function called(c) { return "class " c (c in name ? " \"" name[c] "\"" : "") }

# A record's length by its kind, and of a kind that is not known 1. In a recording, which bin/checkrun asks about, claims are known too.
function length_of(kind) {
    if (events) return kind == 16 || (claims && kind == 18) ? 8 : 1
    return kind == 1 ? 6 : kind == 2 ? 8 : kind == 3 ? 2 : 1
}
function known(kind) { return events ? kind == 16 || kind == 17 || (claims && (kind == 18 || kind == 19)) : kind <= 3 }

# The records up to the place of a fault, or to the end: where each class stands, and what it says.
function walk(until,    kind) {
    at = classes = events = taken = ruled = 0
    while (at < count && at != until && (events || classes < 64)) {
        kind = byte[at]
        if (!known(kind) || at + length_of(kind) > count) return
        if (events) taken++
        else if (kind == 0) events = 1
        else if (kind == 3) ruled = 1
        else {
            classes++
            first[classes] = at; leaf[classes] = kind == 2; parent[classes] = byte[at + 1]; weight[classes] = value(at + 2, 4)
        }
        at += length_of(kind)
    }
}

# Bytes from `from` on, `many` of them as far as there are any, with those from `open` to `shut` in [ ].
function bytes(from, many, open, shut,    i, text) {
    text = ""
    for (i = from; i < from + many && i < count; i++)
        text = text (i > from ? " " : "") (i == open ? "[" : "") sprintf("%02x", byte[i]) (i == shut ? "]" : "")
    return text
}
function record(what, from, open, shut,    many, last) {
    many = length_of(byte[from])
    if (number == 2) many = 8
    last = from + many > count ? count - 1 : from + many - 1
    say(what ": " (last == from ? "byte " from : "bytes " from " to " last) ", " bytes(from, many, open, shut))
}
function field(c, from, open, shut, what) { record(called(c), from, from + open, from + shut); say("wrong: " what) }

# A field's value, as the text has it where its bytes cannot hold it.
function stated(from, what, n,    part, i) {
    for (i = split(over[from], part, ", "); i; i--) if (index(part[i], what " ") == 1) return part[i] ", more than its bytes can hold"
    return what " " n
}

# The line of the text that a record came from.
function text_line(at_line,    n, line) {
    if (!at_line) return
    for (n = 1; n <= at_line; n++) getline line < ENVIRON["TEXT"]
    close(ENVIRON["TEXT"])
    sub(/\r$/, "", line)
    sub(/^\357\273\277/, "", line)
    sub(/^[ \t]+/, "", line)
    say("line " at_line ": " line)
}

# The fields that a cut record lacks.
function missing(kind, there) {
    if (kind == 3) return "rule"
    if (kind == 16 || kind == 18) return there < 2 ? "class, length and tag" : there < 4 ? "length and tag" : "tag"
    return (there < 2 ? "parent, " : "") (there < 6 ? "weight" : "") (kind == 2 ? (there < 6 ? " and " : "") "longest" : "")
}

function children_of(c,    i, sum, text) {
    for (i = c + 1; i <= classes; i++) {
        if (parent[i] != c) continue
        sum += weight[i]
        text = text (text == "" ? "" : " + ") weight[i] " (" called(i) ")"
    }
    return text " = " sprintf("%.0f", sum)
}
function why_parent(c, up) {
    if (up == 255) return "a plan has 63 classes at most"
    if (up >= c) return up == c ? "class " c " names itself" : "class " up " does not come before class " c
    return called(up) " is a leaf"
}

# A fault at a record of the plan or of the events.
function at_record(from,    c, kind, what) {
    walk(from)
    c = classes + 1
    what = number == 2 ? "record " c : byte[from] == 3 ? "the rule" : called(c)
    if (events) what = claims ? "record " taken + 1 " after the plan" : "event " taken + 1
    text_line(line_at[from])
    if (count == 0) say("wrong: the input is empty")
    else if (from >= count) say("wrong: the input has " count " bytes, and then there is no end record")
    else {
        kind = byte[from]
        if (number == 1) {
            record(what, from, -1, -1)
            say("wrong: " count - from " of its " length_of(kind) " bytes are there; not whole: " missing(kind, count - from))
        } else if (number == 2) {
            record(what, from, from, from)
            say("wrong: kind " kind "; " (!events ? "a record of a plan is 0, 1, 2 or 3" : \
                claims ? "a record after the plan is 16, 17, 18 or 19" : "an event is 16 or 17"))
            if (events && (kind == 18 || kind == 19)) say("it is a claim, as in a recording: bin/checkrun checks one")
        } else if (number == 19) {
            record(what, from, from, from)
            if (kind != 17) say("wrong: a claim, and no send stands directly before it")
            else say("wrong: a send, and " (from + 1 < count ? "kind " byte[from + 1] : "nothing") \
                " after it; a claim, 18 or 19, must stand there")
        } else if (number == 3) field(c, from, 0, 0, "63 classes stand before it, and no plan has more")
        else if (number == 4) field(c, from, 1, 1, stated(from, "parent", byte[from + 1]) "; " why_parent(c, byte[from + 1]))
        else if (number == 5) field(c, from, 2, 5, stated(from, "weight", value(from + 2, 4)) "; it must be from 1 to 1000000")
        else if (number == 6) field(c, from, 6, 7, stated(from, "longest", value(from + 6, 2)) "; it must be from 1 to 9216")
        else if (number == 17) {
            record(what, from, from + 1, from + 1)
            say("wrong: " stated(from, "rule", byte[from + 1]) "; it must be 1, whole tree, or 2, active classes")
        } else if (number == 18) {
            record(what, from, from, from)
            say("wrong: the rule is record " classes + ruled + 1 " of the plan; it must be the first")
        } else record(what, from, -1, -1)
    }
    if (events && claims) say("good before it: the plan" (taken ? " and " list("record", "records", taken) " after it" : ""))
    else if (events) say("good before it: the plan" (taken ? " and " list("event", "events", taken) : ""))
    else say("good before it: " (ruled ? "the rule" (classes ? " and " : "") : "") (classes ? list("class", "classes", classes) : ruled ? "" : "nothing"))
}

# A fault of a class once every record is good.
function at_class(c) {
    walk(-1)
    events = 0
    text_line(line_of[c])
    if (number == 7) field(c, first[c], 2, 5, "weight " weight[c] "; its children weigh " children_of(c))
    else if (number == 8) field(c, first[c], 0, 0, "an inner class, and no class names it as its parent")
    else field(c, first[c], 2, 5, "weight " weight[c] "; mended, its children weigh more than 1000000 together")
    # mending goes from the highest class down, and looks for 8 in all classes first
    if (number == 22) say("good before it: every record by itself" (c < classes ? ", and each class after it, mended" : ""))
    else if (ENVIRON["ASKS"] == "mend") say("good before it: every record by itself" (c > 1 ? ", and no lower class is without a child" : ""))
    else say("good before it: every record by itself" (c > 1 ? ", and " list("class", "classes", c - 1) " with the children" : ""))
}

BEGIN {
    claims = ENVIRON["ASKS"] == "checkrun"
    number = ENVIRON["NUMBER"] + 0; place = ENVIRON["PLACE"] + 0; most = ENVIRON["MOST"] + 0
    while ((getline row < ENVIRON["PAGE"]) > 0) {
        if (split(row, cell, / *[|] */) < 6 || cell[2] != number "" || told) continue
        told = 1
        meant = cell[3]; where = cell[4]; advice = cell[6]
    }
    while (ENVIRON["MAP"] != "" && (getline row < ENVIRON["MAP"]) > 0) {
        split(row, part, "\t")
        line_at[part[1] + 0] = part[3]
        if (part[5] != "") over[part[1] + 0] = part[5]
        if (part[2] + 0) { line_of[part[2] + 0] = part[3]; if (part[4] != "") name[part[2] + 0] = part[4] }
    }
    count = 0
}
{ for (i = 1; i <= NF; i++) byte[count++] = $i + 0 }
END {
    if (told) { say("number " number ": " meant); say("place " place ": " where) }
    if (ENVIRON["SIZE"] == "") { if (told) say("what to do: " advice); exit }
    if (number == 7 || number == 8 || number == 22) at_class(place)
    else if (number == 9) say("wrong: the end of the plan, byte " (byte[0] == 3 ? "2" : "0") ", [00], and no class before it")
    else if (number == 10) say("wrong: the input has " ENVIRON["SIZE"] " bytes" (ENVIRON["SIZE"] > 16777216 ? " or more" : ""))
    else if (number <= 6 || (number >= 17 && number <= 19)) at_record(place)
    else if (place in name) say(called(place))
    if (told) say("what to do: " advice)
}
