# SPDX-License-Identifier: Apache-2.0
# Writes a document as it is installed: links.awk NAMES DOCUMENT, with the document's own name below the prefix as `name`. NAMES lists what is
# installed. A link to a file that is installed elsewhere than in the repository leads there, and one to what isn't installed is left as its text.

# A name without `.` and `..`, seen from a folder.
function resolved(folder, path,    parts, count, i, out, kept) {
    count = split(folder "/" path, parts, "/")
    kept = 0
    for (i = 1; i <= count; i++) {
        if (parts[i] == "" || parts[i] == ".") continue
        if (parts[i] == ".." && kept > 0) kept--
        else out[++kept] = parts[i]
    }
    path = ""
    for (i = 1; i <= kept; i++) path = path (i > 1 ? "/" : "") out[i]
    return path
}

# The way up from a folder to the prefix.
function way_up(folder,    parts, count, path) {
    count = split(folder, parts, "/")
    path = ""
    while (count-- > 0) path = path "../"
    return path
}

# A link as it is installed: its text and its target.
function installed_link(text, target,    path, anchor, at) {
    if (target ~ /^(#|[a-z]+:)/) return "[" text "](" target ")"
    at = index(target, "#")
    path = at ? substr(target, 1, at - 1) : target
    anchor = at ? substr(target, at) : ""
    path = resolved(folder, path)
    if (path in there) return "[" text "](" target ")"
    if (path ~ /^share\/doc\/yuglemit\/examples(\/|$)/) {
        sub(/^share\/doc\/yuglemit/, "share/yuglemit", path)
        if (path in there) return "[" text "](" way_up(folder) path anchor ")"
    }
    return text
}

NR == FNR {
    there[$0]
    path = $0
    while (sub(/\/[^\/]*$/, "", path)) there[path]
    next
}

FNR == 1 {
    folder = name
    sub(/\/[^\/]*$/, "", folder)
}

/^ *```/ { in_block = !in_block }

{
    rest = $0
    line = ""
    while (!in_block && match(rest, /\[[^][]*\]\([^() ]*\)/)) {
        link = substr(rest, RSTART, RLENGTH)
        at = index(link, "](")
        line = line substr(rest, 1, RSTART - 1) installed_link(substr(link, 2, at - 2), substr(link, at + 2, length(link) - at - 2))
        rest = substr(rest, RSTART + RLENGTH)
    }
    print line rest
}
