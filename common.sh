# What the scripts show, desk and test have in common. A script sets `script`, its name, `root`, this folder, and `usage`, and sources this file.
# No failure of a command ends a script by itself, since its status would say something else: 1 is a refusal or a failed test, 2 wrong use, and 3 says that
# nothing could be done.
# shellcheck shell=sh
# shellcheck disable=SC2154
unset CDPATH

# One line on standard error, whatever bytes a name in it has.
say() {
    printf '%s: %s\n' "$script" "$(printf '%s' "$*" | tr '\001-\037\177' '?')" >&2 2>/dev/null || :
}

wrong_use() {
    say "$*; ./$script --help tells the use"
    exit 2
}

give_up() {
    say "$*"
    exit 3
}

# Writes to standard output, which may be closed or full.
print() {
    trap '' PIPE
    printf '%s\n' "$*" 2>/dev/null || give_up "output not written"
}

# The commit where this folder is a repository, and the kit.
version() {
    unset GIT_DIR GIT_WORK_TREE GIT_INDEX_FILE
    commit=unknown
    [ ! -e "$root/.git" ] || commit=$(git -C "$root" describe --always --exclude '*' --dirty=' with changes' 2>/dev/null) || commit=unknown
    kit=$(rt version 2>/dev/null) || kit="unknown, since rt is not on the path"
    print "commit $commit
kit $kit"
}

# Answers --help and --version. `--` ends the options, and there are no others.
answer_option() { # WORD
    case $1 in
    --help) print "$usage" && exit 0 ;;
    --version) version && exit 0 ;;
    --) ;;
    -*) wrong_use "there is no option $1" ;;
    esac
}

# ---- what has to be installed

need_rt() {
    command -v rt >/dev/null || give_up "rt is not on the path: add the folder bin of the Rattle kit to PATH"
}

# The Debian packages that the tests lack. A compiler without headers does not do, nor a Python without its library.
missing_packages() {
    missing=
    { command -v cc && echo '#include <stdio.h>' | gcc -x c -fsyntax-only -; } >/dev/null 2>&1 || missing="gcc libc6-dev "
    python3 -c 'import argparse, ctypes, random, subprocess, tempfile' >/dev/null 2>&1 || missing="${missing}python3"
    echo "${missing% }"
}

# Installs what the tests lack where this user may, as root or by sudo without a password, and else says how.
install_missing() {
    packages=$(missing_packages)
    [ -n "$packages" ] || return 0
    install="apt-get install -y --no-upgrade $packages"
    as='' by_hand=$install
    [ "$(id -u)" = 0 ] || as='sudo -n' by_hand="sudo $install"
    if ! command -v apt-get >/dev/null || ! $as true 2>/dev/null; then
        give_up "missing: $packages; this installs them: $by_hand"
    fi
    say "installing $packages by apt-get; target/setup.log has what it says"
    mkdir -p "$root/target"
    as="$as env DEBIAN_FRONTEND=noninteractive"
    # shellcheck disable=SC2086
    { $as $install || { $as apt-get update; $as $install; }; } </dev/null >"$root/target/setup.log" 2>&1
    [ -z "$(missing_packages)" ] || give_up "missing: $packages; target/setup.log tells why this did not install them: $by_hand"
}

# ---- what has to be built

# The folders of the crates that a program is made of. What else crates.txt names is the kit's.
made_of() { # NAME
    awk -v wanted="$1" '
        function visit(name, needed, count, i) {
            if (!(name in needs) || seen[name]++) return
            print "crates/" name
            count = split(needs[name], needed, " ")
            for (i = 1; i <= count; i++) visit(needed[i])
        }
        { sub(/#.*/, "") }
        split($0, part, ":") == 2 { split(part[1], word, " "); needs[word[1]] = part[2] }
        END { visit(wanted) }' "$root/crates.txt"
}

# The files that a program is made of, or those of them that pass a test of find. What rt makes is in out/, and no program has anything of must-fail/.
parts_of() { # NAME TEST..
    name=$1
    shift
    # shellcheck disable=SC2046
    (cd "$root" && find crates.txt $(made_of "$name") -regex 'crates/[^/]*/\(out\|must-fail\)' -prune -o ! -type d "$@" -print) 2>&1 | LC_ALL=C sort
}

# What tells later whether a program that is built now is up to date: the kit, and the names of the files. Its time is that at which the build began.
note() { # NAME
    rt version
    parts_of "$1"
}

is_linked() { # NAME
    [ -f "$root/crates/$1/out/$1" ] && [ -x "$root/crates/$1/out/$1" ]
}

# Why a program has to be built, or nothing. target/NAME.built has the note of the last build. A file's time of change is what counts, which nobody can set
# back, and that no name is gone or new.
out_of_date() { # NAME
    built=target/$1.built
    if ! is_linked "$1"; then
        echo "$1 is not built"
        return
    elif [ ! -f "$root/$built" ]; then
        echo "$1 is there, and nothing tells that it is up to date"
        return
    fi
    changed=$(parts_of "$1" -cnewer "$built" | sed 1q)
    kit=$(rt version 2>/dev/null) || kit=
    if [ -n "$changed" ]; then
        echo "$1 is older than $changed"
    elif [ "$(parts_of "$1")" != "$(sed 1d "$root/$built")" ]; then
        echo "$1 was made of other files"
    elif [ -n "$kit" ] && [ "$kit" != "$(sed 1q "$root/$built")" ]; then
        echo "$1 is of another kit"
    fi
}

# Of what rt says its own lines alone, one for each crate that is proved, to standard error; the rest is read where nobody can be told.
a_line_a_crate() {
    sed -un -e '/^rt: running /d' -e 's/^rt: chose --jobs .* for /proving /p' -e 's/^rt: //p' >&2 2>/dev/null || cat >/dev/null
}

# Proves and builds a program. rt runs it too, on no input, and ends with its status, which tells nothing of the proof: that it runs one does. By its bytes
# alone it goes on, so that a program that cannot be run has to go.
build() { # NAME WHY
    log=target/$1.log
    if ! mkdir -p "$root/target" 2>/dev/null || [ ! -w "$root/target" ]; then
        give_up "$2, and could not be built: this user may not write to $root/target"
    fi
    say "$2: proving and building it, half an hour or more from nothing, minutes where little changed; $log has all that rt says"
    note "$1" >"$root/target/$1.begun"
    is_linked "$1" || rm -f "$root/crates/$1/out/$1"
    (cd "$root/crates/$1" && rt run </dev/null 2>&1) | tee "$root/$log" | a_line_a_crate
    if ! grep -q "^rt: running out/$1;" "$root/$log" || ! is_linked "$1" || ! mv "$root/target/$1.begun" "$root/target/$1.built"; then
        give_up "$1 could not be proved and built; $log says why"
    fi
}

build_if_needed() { # NAME
    why=$(out_of_date "$1")
    [ -z "$why" ] || build "$1" "$why"
}

# Runs a function while no other script of this folder builds.
alone() { # FUNCTION WORD..
    (
        flock -n 9 || { say "waiting for the end of another build"; flock 9; }
        "$@"
    ) 9<"$root/crates"
}

# Sees to it that crates/NAME/out/NAME is what the crates say.
ready() { # NAME
    [ -n "$(out_of_date "$1")" ] || return 0
    need_rt
    alone build_if_needed "$1" || exit 3
}
