# Writes what documents show to a folder: awk -f tools/program/shown.awk -v folder=DIR README.md docs/*.md. There shown.txt has each
# command `$ ./tw ..` in a block of code, with the lines below it, except the script's own `build` and `test`. A
# block after the words "into `sum.twn`" is the file sum.twn; a command `$ sed -i .. sum.twn` in a block makes sum_2.twn of it, and
# so on, and a command takes the last.

function current(name) {
    return version[name] == 1 ? name : substr(name, 1, index(name, ".") - 1) "_" version[name] substr(name, index(name, "."))
}

/^```/ {
    block = !block
    shown = 0
    if (!block && file) { close(file); file = "" }
    if (block && named) { file = folder "/" current(named); named = "" }
    next
}

!block && match($0, /into `[a-z_]+\.twn?`/) {
    named = substr($0, RSTART + 6, RLENGTH - 7)
    version[named]++
}

block && file { print > file }

block && /^\$ sed -i / {
    edit = $0
    sub(/^\$ sed -i /, "sed ", edit)
    sub($NF "$", "", edit)
    before = folder "/" current($NF)
    version[$NF]++
    system(edit before " > " folder "/" current($NF))
}

block && /^\$ / {
    shown = /^\$ \.\/tw / && !/^\$ \.\/tw (build|test|install|package)$/
    for (name in version) gsub(name, current(name))
}

shown { print > (folder "/shown.txt") }
