# What the scripts ./sheet, ./blif and ./compare share: arguments, the build, reading and writing, the sentences of refusals. Each runs a program of
# crates/, proved and built first where that is not done for the files as they are, with the progress on standard error. The script sets `script`, its own
# name; `crate`, the program's; `undone`, what a failure leaves undone; `usage` and `help`. tests/library builds the C library by it: it also sets `verb`,
# the command of rt that builds, and `program`, the file that is there once it is built.
root=$(dirname "$(readlink -f "${BASH_SOURCE[0]}")")
program=${program-$root/crates/$crate/out/$crate}
built=$root/target/$script.built
log=$root/target/$script.log

fail() {
    echo "$script: $*" >&2
    exit 2
}

fail_usage() {
    fail "$undone: $*; usage: $usage"
}

version() {
    sed -n 's/^#define BENCH_VERSION \([0-9]*\)$/'"$script"' of Filzaod, version \1/p' "$root/include/bench.h"
}

# Leaves the file names in `files`, where so many are wanted at most; with --help or --version nothing else is done.
take_arguments() { # HOW MANY, ARGUMENT...
    local most=$1 options=yes word
    files=()
    shift
    for word; do
        case $options$word in
        yes--help) printf 'usage: %s\n%s\n' "$usage" "$help" && exit 0 || fail "the output could not be written whole" ;;
        yes--version) version && exit 0 || fail "the output could not be written whole" ;;
        yes--) options=no ;;
        yes-?*) fail_usage "there is no option $word" ;;
        *) files+=("$word") ;;
        esac
    done
    ((${#files[@]} <= most)) || fail_usage "too many file names"
}

# That a file, - for standard input, can be read, as far as that can be told before it is.
look_at() { # FILE
    if [[ $1 == - ]]; then
        { : 3<&0; } 2>/dev/null || fail "$undone: standard input is closed"
        [[ ! -t 0 ]] || fail_usage "nothing on standard input"
    elif [[ ! -e $1 ]]; then
        fail "$undone: $1: no such file"
    elif [[ -d $1 ]]; then
        fail "$undone: $1: a folder, not a file"
    elif [[ ! -r $1 ]]; then
        fail "$undone: $1: not allowed to read it"
    fi
}

# The mark, not the program, is compared: a program whose check failed at its last step is there and must not be used. What a build makes stands in the
# crates' out/, which says nothing of the files; a crate's own folder is not compared, since out/ comes and goes there.
is_built() {
    [[ -e $program && -e $built && ! $root/crates.txt -nt $built ]] || return
    [[ -z $(find "$root"/crates/*/ -mindepth 1 -name out -prune -o -newer "$built" -print -quit) ]]
}

# The crates of the repository that the program is made of, in the order in which rt builds them, itself last.
crates_below() {
    awk -F: -v crate="$crate" '
        function visit(name,    needs, count, i) {
            if (!(name in line) || name in seen) return
            seen[name]
            count = split(line[name], needs, " ")
            for (i = 1; i <= count; i++) visit(needs[i])
            print name
        }
        /^[^#]/ { split($1, words, " "); line[words[1]] = $2 }
        END { visit(crate) }' "$root/crates.txt"
}

# Turns what rt prints of a crate, a line "crate NAME: .." and then, if it is proved, one that begins "logic=proved", into one that says how far it is. Of
# a crate that is built already rt says nothing.
show_progress() { # CRATE...
    local line name="" at before=$SECONDS
    while IFS= read -r line; do
        if [[ $line =~ ^crate\ ([a-z0-9_]+): ]]; then
            name=${BASH_REMATCH[1]}
        elif [[ -n $name && $line == "logic=proved "* ]]; then
            for ((at = 1; at < $#; at++)); do [[ ${!at} != "$name" ]] || break; done
            echo "$script: crate $at of $#, $name, is proved ($((SECONDS - before)) s); $SECONDS s so far" >&2
            name="" before=$SECONDS
        fi
    done
}

# No command of rt builds a program and does no more: `rt run` also runs it, on an empty input here. It says what it does on standard error, and what the
# program prints is of no use. The other commands say what they do on standard output.
build_by_rt() {
    cd "$root/crates/$crate" || return
    if [[ ${verb-run} == run ]]; then
        rt run >/dev/null
    else
        rt "$verb"
    fi
}

prove_and_build() {
    local crates
    rm -f "$built" && touch "$built.begun" || fail "not built: $root/target cannot be written"
    mapfile -t crates < <(crates_below)
    echo "$script: proving and building ${#crates[@]} crates, once; several minutes on two cores" >&2
    if ! build_by_rt </dev/null 2>&1 | tee "$log" | show_progress "${crates[@]}"; then
        tail -n 20 "$log" >&2
        fail "not built: the end of target/$script.log stands above"
    fi
    mv "$built.begun" "$built" || fail "not built: $built cannot be written"
}

# One build at a time in a folder: all of them write the same files. The lock goes with the process that holds it.
build() {
    local lock
    command -v rt >/dev/null || fail "not built: there is no rt, the Rattle kit is not installed"
    command -v flock >/dev/null || fail "not built: there is no flock, which keeps two builds apart (util-linux)"
    { mkdir -p "$root/target" && exec {lock}>"$root/target/build.lock"; } 2>/dev/null || fail "not built: $root/target cannot be written"
    if ! flock --nonblock "$lock"; then
        echo "$script: another build is at work in $root; waiting until it ends" >&2
        flock "$lock" || fail "not built: the other build could not be waited for"
    fi
    is_built || prove_and_build
    exec {lock}>&-
}

# Looks at both ends, builds the program where it must be, and makes a folder for copies, which goes at the end.
begin() { # FILE...
    local file
    { : 3>&1; } 2>/dev/null || fail "$undone: standard output is closed"
    for file; do look_at "$file"; done
    is_built || build
    copies=$(mktemp -d) || fail "$undone: no temporary folder can be made"
    trap 'rm -rf "$copies"' EXIT
}

# So that a failed read is told in a sentence, the programs get a copy, of 32,769 bytes at most, one more than any image or text has.
copy() { # FILE COPY
    if [[ $1 == - ]]; then
        head -c 32769 >"$2" 2>/dev/null || fail "$undone: standard input could not be read, or no copy of it written"
    else
        head -c 32769 -- "$1" >"$2" 2>/dev/null || fail "$undone: $1 could not be read, or no copy of it written"
    fi
}

# So that a failed write is told too, their output is taken whole, looked at, and written from here. A reader that went away has what it wanted.
deliver() { # FILE
    local said
    { said=$(LC_ALL=C cat -- "$1" 2>&1 >&3); } 3>&1 || [[ $? == 141 || $said == *"Broken pipe"* ]] || fail "the output could not be written whole"
}

# Says a refusal in its sentence, which stands in a table beside the package for Rust.
explain() { # FILE NUMBER PLACE
    local file=$1 key what sentence
    [[ $file != - ]] || file="standard input"
    while IFS='|' read -r key what sentence; do
        [[ $key != "$2,$3" && $key != "$2" ]] || break
    done <"$root/rust/src/refusals.txt"
    sentence=${sentence:-a refusal for which there is no sentence}
    echo "$script: $file: ${sentence//\{place\}/$3} (refused $2, ${what:-place} $3)" >&2
}
