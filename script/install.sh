# SPDX-License-Identifier: Apache-2.0
# shellcheck shell=sh
# `./tw install [PREFIX]`: installs the proved program, the libraries and what belongs to them below a prefix, and removes them again. DESTDIR
# precedes the prefix; LIBDIR is the folder of libraries below it, `lib` if it isn't set. The script tw reads this file.
#
# Everything is laid out in a folder of its own first. share/yuglemit/installed lists what is installed, a line a file: its SHA-256 and its name.
# Only what is as that list says is replaced or removed.
# shellcheck source=script/find.sh disable=SC2154
. "$root/script/find.sh"
list=share/yuglemit/installed

install_usage() {
    cat <<'TEXT'
Installs the program, the C library, the manual, completions and the examples below a prefix.

Usage: ./tw install [--force] [PREFIX]
       ./tw install --uninstall [--force] [PREFIX]

PREFIX is ~/.local if none is named. The variable DESTDIR goes before it; LIBDIR is the folder of libraries below it, lib if it isn't set.

  --uninstall  Removes what an installation put there
  --force      Also replaces, or removes, files of these names that no installation put there, or that have changed since

PREFIX/share/yuglemit/installed lists what is installed.
Exit status: 0 done, 2 command line rejected, 66 nothing is installed there, 70 there is no proved program, 73 a file is in the way.
TEXT
}

# Quotes a word for a shell, if it isn't plain.
quoted() {
    case $1 in
        *[!A-Za-z0-9_./+-]* | '') printf "'%s'" "$(printf '%s' "$1" | sed "s/'/'\\\\''/g")" ;;
        *) printf '%s' "$1" ;;
    esac
}

# Lays out a file: its mode, the file, and its name below the prefix.
put() {
    install -D -m "$1" "$2" "$stage/$3" || exit 70
    echo "$3" >>"$room/names"
}

# Lays out a link: what it names, and its name below the prefix.
put_link() {
    mkdir -p "$stage/${2%/*}" && ln -sfn "$1" "$stage/$2" || exit 70
    echo "$2" >>"$room/names"
}

# Lays out a template of script/install with its words filled in: its name there, its mode, and its name below the prefix.
put_filled() {
    sed "s|@VERSION@|$version|g; s|@ABI@|$abi|g; s|@SINCE@|$since|g; s|@LIBDIR@|$libdir|g; s|@UP@|$up|g" "$root/script/install/$1.in" >"$room/filled"
    put "$2" "$room/filled" "$3"
}

put_program() {
    need_proved tw_main "./tw build"
    put 755 "$program" libexec/yuglemit/tw
    put 644 "$root/script/terminal.sh" libexec/yuglemit/terminal.sh
    put 755 "$root/script/install/tw.sh" bin/tw
    put 644 "$root/docs/tw.1" share/man/man1/tw.1
    put 644 "$root/script/install/tw.bash" share/bash-completion/completions/tw
    put 644 "$root/script/install/tw.zsh" share/zsh/site-functions/_tw
    put 644 "$root/script/install/tw.vim" share/vim/vimfiles/syntax/tw.vim
    echo 'au BufNewFile,BufRead *.tw,*.twn setf tw' >"$room/ftdetect"
    put 644 "$room/ftdetect" share/vim/vimfiles/ftdetect/tw.vim
}

put_library() {
    need_proved tw_embed "./tw build --library"
    read -r abi since <"$root/embed/ABI"
    put 644 "$program" "$libdir/libyuglemit.so.$version"
    put_link "libyuglemit.so.$version" "$libdir/libyuglemit.so.$abi"
    put_link "libyuglemit.so.$abi" "$libdir/libyuglemit.so"
    archive=$(static_library) || exit 70
    put 644 "$archive" "$libdir/libyuglemit.a"
    put 644 "$root/embed/yuglemit.h" include/yuglemit.h
    put 644 "$root/embed/cpp/yuglemit.hpp" include/yuglemit.hpp
    put_filled yuglemit.pc 644 "$libdir/pkgconfig/yuglemit.pc"
    put_filled yuglemit-config.cmake 644 "$libdir/cmake/yuglemit/yuglemit-config.cmake"
    put_filled yuglemit-config-version.cmake 644 "$libdir/cmake/yuglemit/yuglemit-config-version.cmake"
}

put_examples() {
    for file in $(cd "$root/examples" && find . -type f ! -path '*/__pycache__/*' | LC_ALL=C sort); do
        mode=644
        [ -x "$root/examples/$file" ] && mode=755
        put "$mode" "$root/examples/$file" "share/yuglemit/examples/${file#./}"
    done
}

# README and the manual lie as in the repository, so their links lead to one another. A link to what isn't installed is left as its text.
put_documents() {
    put 644 "$root/LICENSE" share/doc/yuglemit/LICENSE
    for file in "$root"/docs/*.schema.json; do
        put 644 "$file" "share/doc/yuglemit/docs/${file##*/}"
    done
    documents="README SECURITY CHANGELOG docs/FIRST docs/FORMAT docs/MACHINE docs/BYTES docs/NAMES docs/IDIOMS docs/BUILD docs/HOSTING docs/MANY docs/ABI"
    for file in $documents; do echo "share/doc/yuglemit/$file.md"; done >>"$room/names"
    for file in $documents; do
        name=share/doc/yuglemit/$file.md
        awk -v name="$name" -f "$root/script/install/links.awk" "$room/names" "$root/$file.md" >"$room/document" && install -D -m 644 "$room/document" "$stage/$name" || exit 70
    done
}

# The documents as HTML, as the release has them, for a browser. A release before 0.26 has none.
put_manual() {
    [ -r "$root/release/manual.tar.gz" ] || return 0
    unpack manual.tar && tar -C "$room" -xf "$out/release/manual.tar" || exit 70
    for file in "$room"/html/*; do
        put 644 "$file" "share/doc/yuglemit/html/${file##*/}"
    done
}

# The lines that a list has of what is in a folder under the names of standard input: the SHA-256 of a file, or of what a link names, and the name.
# What is neither, or can't be read, has zeros.
lines_of() {
    (
        cd "$1" 2>/dev/null || exit 0
        while read -r name; do
            if [ -L "$name" ]; then
                echo "$(readlink "$name" | sum_of_input)  $name"
            elif [ -f "$name" ] && [ -r "$name" ]; then
                echo "$name" >&5
            elif [ -e "$name" ]; then
                printf '%064d  %s\n' 0 "$name"
            fi
        done 5>"$room/files"
        xargs -r -d '\n' sha256sum <"$room/files"
    )
}

# Which names of standard input are there, but not as an earlier installation put them there. Lists before version 0.20 have no sums.
foreign() {
    lines_of "$base" | awk '
        is_list { known[$0]; next }
        !($0 in known) && !($1 ~ /[1-9a-f]/ && substr($0, 67) in known) { print substr($0, 67) }' is_list=1 "$room/before" is_list=0 -
}

# Ends if a file would be replaced that isn't ours.
refuse_foreign() {
    foreign <"$room/names" >"$room/foreign"
    [ -s "$room/foreign" ] || return 0
    while read -r name; do say "$prefix/$name is in the way: no installation put it there, or it has changed"; done <"$room/foreign"
    say "nothing is installed; --force replaces what is in the way"
    exit 73
}

# Lists what is laid out with its sums, after what an earlier list has of other files that are still there.
list_all() {
    sed 's/^[0-9a-f]\{64\}  //' "$room/before" | grep -vxFf "$room/names" | grep -vxF "$list" | while read -r name; do
        { [ -e "$base/$name" ] || [ -L "$base/$name" ]; } && awk -v name="$name" '$0 == name || substr($0, 67) == name' "$room/before"
    done
    lines_of "$stage" <"$room/names"
}

# Puts one file into its place in one step, so that a running program isn't disturbed.
move_in() {
    { [ -d "$base/${1%/*}" ] || mkdir -p "$base/${1%/*}"; } && cp -P "$stage/$1" "$base/$1.new.$$" && mv -fT "$base/$1.new.$$" "$base/$1" && return
    rm -f "$base/$1.new.$$"
    say "$base/$1 can't be written"
    exit 73
}

# Takes the list of an earlier installation, if there is one.
read_list() {
    need_room
    stage=$room/stage
    : >"$room/before"
    [ ! -r "$base/$list" ] || cp "$base/$list" "$room/before"
}

install_all() {
    read_list
    version=$(cat "$root/VERSION")
    put_program
    put_library
    put_examples
    put_documents
    put_manual
    [ -n "$force" ] || refuse_foreign
    list_all >"$room/after"
    mkdir -p "$base/${list%/*}" && cat "$room/before" "$room/after" >"$base/$list" || exit 73 # both, until all is in place
    while read -r name; do move_in "$name"; done <"$room/names"
    cp "$room/after" "$base/$list" || exit 73
    say "tw $version is installed below $prefix; $(quoted "$0") install $(quoted "$prefix") --uninstall removes it"
}

# Removes each file of the list that is as it was, and the folders that are empty then.
uninstall_all() {
    if [ ! -r "$base/$list" ]; then
        say "nothing is installed below $prefix"
        exit 66
    fi
    read_list
    sed 's/^[0-9a-f]\{64\}  //' "$room/before" | LC_ALL=C sort -u | grep -vxF "$list" >"$room/names"
    : >"$room/foreign"
    [ -n "$force" ] || foreign <"$room/names" >"$room/foreign"
    grep -vxFf "$room/foreign" "$room/names" | (cd "$base" && xargs -r -d '\n' rm -f --)
    rm -f "$base/$list"
    while read -r name; do say "$base/$name has changed, and stays; --force removes it"; done <"$room/foreign"
    { echo "$list"; cat "$room/names"; } | sed 's|/[^/]*$||' | LC_ALL=C sort -ru | while read -r folder; do
        (cd "$base" && rmdir -p "$folder") 2>/dev/null
    done
    say "removed"
}

install_command() {
    action=install_all prefix='' force=''
    for word; do
        case $word in
            --help | -h) printed install_usage; return ;;
            --uninstall) action=uninstall_all ;;
            --force) force=yes ;;
            -* | '') say "./tw install takes a prefix, --uninstall and --force; ./tw help install says more"; exit 2 ;;
            *)
                [ -z "$prefix" ] || { say "./tw install takes one prefix, and got $prefix and $word"; exit 2; }
                prefix=$word ;;
        esac
    done
    prefix=${prefix:-$HOME/.local}
    case $prefix in
        /*) ;;
        *) prefix=$PWD/$prefix ;;
    esac
    base=${DESTDIR:-}$prefix libdir=${LIBDIR:-lib}
    up=$(echo "$libdir" | sed 's|[^/]*|..|g')
    "$action"
}
