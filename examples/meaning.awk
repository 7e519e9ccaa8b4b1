# Says what flowlist's lines mean, with the script's lines and columns.
#     awk -v script=SCRIPT -v sheet=SHEET -f meaning.awk < PRINTED
# SHEET is the plain text of the sheet: its name lines give the locals. Columns count bytes from 1.
BEGIN {
    while ((getline line < script) > 0) {
        rows++
        row[rows] = line
        from[rows] = length(text)
        text = text line "\n"
    }
    locals = 0
    while ((getline line < sheet) > 0) {
        count = split(line, field, " ")
        if (field[1] == "name") {
            split(field[3], span, "-")
            declared[locals] = span[1]
            name[locals] = substr(text, span[1] + 1, span[2] - span[1])
            locals++
        }
    }
    split("its end|a break or goto without a target|a return with values|a bare return|an error", exit_name, "|")
    split("bench too small|miscount|bad item|too deep|bad nesting|off the line|bad name|bad use", refusal, "|")
}

function row_of(offset,   at) {
    for (at = rows; at > 1 && from[at] > offset; at--) ;
    return at
}

function place(offset,   at) {
    at = row_of(offset)
    return "line " at ", column " (offset - from[at] + 1)
}

function times(mark, count,   marks) {
    for (marks = ""; count > 0; count--) marks = marks mark
    return marks
}

# The script's line, and marks below the bytes from start to end.
function point(start, end,   at) {
    at = row_of(start)
    printf "   %6d | %s\n", at, row[at]
    printf "   %6s | %s%s\n", "", times(" ", start - from[at]), times("^", end - start)
}

function say(words) {
    printf "   %-26s %s\n", $0, words
}

$1 == "refused" {
    say("the sheet is refused: " refusal[$2])
}

$1 == "graph" {
    say($2 " nodes in the flow graph, " $3 " pieces of code, " $4 " locals")
}

$1 == "exits" {
    can = cannot = ""
    for (at = 1; at <= 5; at++) {
        if ($(at + 1) == 1) can = can (can == "" ? "" : ", ") exit_name[at]
        else cannot = cannot (cannot == "" ? "" : ", ") exit_name[at]
    }
    say("the script can leave by: " (can == "" ? "nothing" : can))
    if (cannot != "") printf "   %-26s not by: %s\n", "", cannot
}

$1 == "unassigned" {
    say(place($4) ": " name[$2] ", declared on line " row_of(declared[$2]) ", is read empty (use " $3 ")")
    point($4, $5)
}

$1 == "overwritten" {
    if ($3 == declared[$2]) say(place($3) ": the first value of " name[$2] " is overwritten and never read")
    else say(place($3) ": the value written here to " name[$2] " is overwritten and never read")
    point($3, $4)
}
