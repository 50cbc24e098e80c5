# Turns the comments, numbers and functions of ethnl.h into the source of the manual page ethnl(3):
#     awk -v version=0.4.0 -f ethnl.3.awk ethnl.h
#
# In a comment an empty line ends a paragraph, two blanks begin a parameter, four a line of code. The first sentence of a comment before
# numbers is their heading.

function text(line) {
    gsub(/\\/, "\\e", line)
    while (match(line, /`[^`]*`/))
        line = substr(line, 1, RSTART - 1) "\\fI" substr(line, RSTART + 1, RLENGTH - 2) "\\fR" substr(line, RSTART + RLENGTH)
    sub(/^[.']/, "\\\\\\&&", line)
    return line "\n"
}

function literal(line) {
    line = text(line)
    gsub(/-/, "\\-", line)
    return line
}

# Code and parameters end where a paragraph does.
function plain() {
    if (state == "code")
        body = body ".fi\n"
    state = ""
}

function parameter(line, word) {
    sub(/^ +/, "", line)
    word = line
    sub(/ .*/, "", word)
    sub(/^[^ ]+ +/, "", line)
    plain()
    body = body ".TP\n.I " word "\n" text(line)
    state = "parameter"
}

function code(line) {
    if (state != "code")
        body = body ".PP\n.nf\n"
    body = body literal(substr(line, 5))
    state = "code"
}

function paragraph(line) {
    if (state != "text") {
        plain()
        body = body ".PP\n"
    }
    body = body text(line)
    state = "text"
}

# One line of a comment.
function say(line) {
    if (line == "")
        plain()
    else if (line ~ /^  [a-z]/)
        parameter(line)
    else if (line ~ /^    / && state == "parameter")
        body = body text(substr(line, match(line, /[^ ]/)))
    else if (line ~ /^    /)
        code(line)
    else
        paragraph(line)
}

function say_comment(from, at) {
    plain()
    for (at = from; at <= lines; at++)
        say(comment[at])
    plain()
    lines = 0
}

# The heading of numbers: the first sentence of the comment before them; what follows it is text.
function heading(at, first) {
    first = comment[1]
    sub(/\.( .*)?$/, "", first)
    body = body ".SS " first "\n"
    comment[1] = substr(comment[1], length(first) + 3)
    say_comment(comment[1] == "" ? 2 : 1)
}

# "#define NAME VALUE /* MEANING */"; a value that is no number is left out, and so is a name with neither. A number may end in u.
function number_line(line, name, value, meaning) {
    meaning = line
    if (!sub(/^.*\/\* /, "", meaning))
        meaning = ""
    sub(/ \*\/$/, "", meaning)
    name = $2
    value = $3
    sub(/u$/, "", value)
    value = value ~ /^[0-9]+$/ ? " " value : ""
    if (meaning != "")
        body = body ".TP\n.B " name value "\n" text(meaning)
    else if (value != "")
        body = body ".PP\n.B " name value "\n"
}

function function_line(line) {
    sub(/^ +/, "  ", line)
    synopsis = synopsis literal(line)
}

# Comments: collected until it is known what they stand before.
/^\/\*.*\*\/$/ { lines = 1; comment[1] = substr($0, 4, length($0) - 6); next }
/^\/\*$/ { lines = 0; inside = 1; next }
inside && /^ \*\/$/ { inside = 0; if (!begun) { begun = 1; opening() } next }
inside { comment[++lines] = substr($0, 4); next }

# The file's own comment: its first line is "NAME: what it is for".
function opening() {
    purpose = comment[1]
    sub(/^[^:]*: /, "", purpose)
    sub(/\.$/, "", purpose)
    say_comment(2)
}

/^#define ETHNL_H$/ { next }
/^#define / { if (lines) heading(); number_line($0); next }
/^[a-z0-9_]+ ethnl_[a-z_]+\(/ {
    match($0, /ethnl_[a-z_]+/)
    names = names ", " substr($0, RSTART, RLENGTH)
    body = body ".SS " substr($0, RSTART, RLENGTH) "\n"
    say_comment(1)
    declaring = 1
}
declaring { function_line($0); if (/;$/) { declaring = 0; synopsis = synopsis ".PP\n" } }

END {
    printf ".TH ETHNL 3 \"\" \"ethnl %s\" \"Library Functions\"\n", version
    printf ".SH NAME\nethnl%s \\- %s\n", names, purpose
    printf ".SH SYNOPSIS\n.nf\n#include <ethnl.h>\n.PP\n%s.fi\n.PP\n", synopsis
    printf "cc .. $(pkg\\-config \\-\\-cflags \\-\\-libs ethnl)\n.SH DESCRIPTION\n%s", body
}
