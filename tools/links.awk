# A page with each name between backquotes linked to its file; a name that the index lacks goes to standard error. `index_file` has a name and
# a path a line, the first path of a name being the one to link.
BEGIN {
    FS = "\t"
    split("requires ensures result abbrev unfoldable", words, " ")
    for (i in words) keyword[words[i]] = 1
    while ((getline line < index_file) > 0) {
        split(line, cell, "\t")
        split(cell[2], folder, "/")
        crates[folder[2]] = 1
        if (!(cell[1] in path)) path[cell[1]] = cell[2]
        else others[cell[1]] = others[cell[1]] "\t" cell[2]
    }
}

function exists(p) { return system("test -e '" p "'") == 0 }

# the file of a name, a crate's folder; of several files the one that the row's last name stands in, else one in the crate that the row has
# named last, else one in the section's own crates
function file_of(name,    n, i, k, m, candidate, home) {
    if (name in crates) return "crates/" name
    n = split(path[name] others[name], candidate, "\t")
    for (i = 1; i <= n; i++) if (candidate[i] == last) return candidate[i]
    m = split(crate " " homes, home, " ")
    for (k = 1; k <= m; k++) for (i = 1; i <= n; i++) if (index(candidate[i], "crates/" home[k] "/") == 1) return candidate[i]
    return candidate[1]
}

# the text of a link that stands here already is taken, its address is made anew
{
    if ($0 ~ /^<!-- names of /) { homes = $0; sub(/^<!-- names of /, "", homes); sub(/ -->.*/, "", homes) }
    else if ($0 ~ /^## /) homes = ""
    crate = ""
    last = ""
    rest = $0
    gsub(/\]\(\.\.\/crates\/[^)]*\)/, "]", rest)
    out = ""
    if (rest ~ /^```/) { fenced = !fenced; print $0; next }
    if (fenced) { print $0; next }
    while (match(rest, /\[?`[^`]*`\]?/)) {
        before = substr(rest, 1, RSTART - 1)
        token = substr(rest, RSTART, RLENGTH)
        rest = substr(rest, RSTART + RLENGTH)
        open_bracket = substr(token, 1, 1) == "["
        close_bracket = substr(token, length(token), 1) == "]"
        name = token
        gsub(/[][`]/, "", name)
        shown = "`" name "`"
        out = out before
        quoted = before ~ /"$/
        if (token !~ /^\[?`[A-Za-z_][A-Za-z0-9_.:'◌-]*`\]?$/ || name in keyword || quoted || name ~ /^[a-z][a-z_]*\./) {
            # a path, a field of a variable, or other text
            if (name ~ /^[a-z.]+\/[A-Za-z0-9_.\/-]*$/ && !quoted && !exists(name)) print name > "/dev/stderr"
            out = out token
        } else if (name in path) {
            if (name in crates) crate = name
            else if (name ~ /::/) { crate = name; sub(/::.*/, "", crate) }
            last = file_of(name)
            out = out "[" shown "](../" last ")"
        } else {
            print name > "/dev/stderr"
            out = out token
        }
    }
    print out rest
}
