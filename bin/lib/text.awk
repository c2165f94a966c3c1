# The bytes of a plan or of a whole run, from its text on standard input (the lines are those in the head of bin/planbytes).
# ESCAPES gets the bytes as octal escapes for printf, MAP a line for each record: place, class or 0, line, name, what did not fit.
# A number of the plan that its field cannot hold becomes the field's largest, which is out of range too, so that the plan is refused by
# number as any other. WHO and FROM name the command and the text. Status 2: the text cannot be read.
function bad(what) {
    printf "%s: %s, line %d: %s\n", ENVIRON["WHO"], ENVIRON["FROM"], NR, what | "cat >&2"
    close("cat >&2")
    failed = 2
    exit 2
}

function number(word, what, most, refusal,    n) {
    if (word !~ /^[0-9]+$/) bad(what " is \"" word "\"; expected a number from 0 to " most)
    sub(/^0+/, "", word)
    n = length(word) > 15 ? 1e15 : word + 0
    if (n <= most + 0) return n
    if (!refusal) bad(what " is " word "; expected a number from 0 to " most)
    beyond = beyond (beyond == "" ? "" : ", ") what " " word
    return most + 0
}
function put(n, count,    text) {
    place += count
    text = ""
    while (count-- > 0) { text = sprintf("\\%03o", n % 256) text; n = int(n / 256) }
    printf "%s", text > escapes
}
function mapped(from, class) { printf "%d\t%d\t%d\t%s\t%s\n", from, class, NR, name, beyond > map }

# The quoted name after a class number, taken out of the line.
function named(line,    at, rest) {
    name = ""
    if (!match(line, /^[ \t]*class[ \t]+[0-9]+[ \t]*"/)) return line
    rest = substr(line, RLENGTH + 1)
    line = substr(line, 1, RLENGTH - 1)
    at = index(rest, "\"")
    if (!at) bad("the name has no closing quote")
    name = substr(rest, 1, at - 1)
    if (name !~ /[^ \t]/) bad("the name is empty")
    if (name ~ /\t/) bad("a tab in the name")
    if (letters(name) > 40) bad("a name has at most 40 letters")
    return line " " substr(rest, at + 1)
}
# Letters of a UTF-8 text: bytes but for those that go on with one.
function letters(text) { gsub(/[\200-\277]/, "", text); return length(text) }

function class_line(    from, leaf) {
    leaf = w[3] == "leaf"
    if (events) bad("a class after the events; the plan comes first")
    if ((!leaf && w[3] != "inner") || w[4] != "parent" || w[6] != "weight" || (leaf && w[8] != "longest") || words != (leaf ? 9 : 7))
        bad("expected: class N: inner, parent P, weight W, or class N: leaf, parent P, weight W, longest L")
    if (w[2] !~ /^[0-9]+$/ || w[2] + 0 != ++classes) bad("this is class " classes + (w[2] !~ /^[0-9]+$/) ", not " w[2])
    from = place
    beyond = ""
    put(leaf ? 2 : 1, 1)
    put(number(w[5], "parent", 255, 4), 1)
    put(number(w[7], "weight", "4294967295", 5), 4)
    if (leaf) put(number(w[9], "longest", 65535, 6), 2)
    mapped(from, classes)
}
function rule_line(word) {
    if (classes || events || ruled++) bad("the rule stands before the classes, and once")
    name = beyond = ""
    put(3, 1)
    put(number(word, "rule", 255, 17), 1)
    mapped(place - 2, 0)
}
function event_line(    class, long, tag) {
    if (words != (w[1] == "in" ? 4 : 1)) bad("expected: in CLASS LENGTH TAG, or send")
    if (!events++) put(0, 1)
    name = beyond = ""
    mapped(place, 0)
    if (w[1] == "send") { put(17, 1); return }
    class = number(w[2], "class", 255)
    long = number(w[3], "length", 65535)
    tag = number(w[4], "tag", "4294967295")
    put(16, 1); put(class, 1); put(long, 2); put(tag, 4)
}

BEGIN {
    escapes = ENVIRON["ESCAPES"]
    map = ENVIRON["MAP"]
    place = classes = events = ruled = 0
}
{
    line = $0
    sub(/\r$/, "", line)
    if (NR == 1) sub(/^\357\273\277/, "", line)
    if (line ~ /[\001-\010\013\014\016-\037\177]/) bad("a byte that no text has")
    line = named(line)
    sub(/#.*/, "", line)
    if (line ~ /[0-9],[0-9]/) bad("a number is digits alone, with no comma in it")
    gsub(/[:,]/, " ", line)
    words = split(line, w, " ")
    if (words == 0) next
    if (w[1] == "plan" && w[3] == "classes" && !classes && !events) { if (w[words - 1] == "rule") rule_line(w[words]); next }
    if (w[1] == "class") class_line()
    else if (w[1] == "rule" && words == 2) rule_line(w[2])
    else if (w[1] == "in" || w[1] == "send") event_line()
    else if (w[1] == "stop") bad("this is a refusal, and no plan")
    else bad("expected a line that begins with class, in or send, or rule 2 before them")
}
END {
    if (failed) exit failed
    if (!classes && !events) {
        printf "%s: %s: %s\n", ENVIRON["WHO"], ENVIRON["FROM"], NR ? "no class in the text" : "the text is empty" | "cat >&2"
        exit 2
    }
    if (!events) put(0, 1)
}
