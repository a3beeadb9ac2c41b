# shellcheck shell=sh
# What the scripts of this folder share: each sources it first. It sets `top`, the folder of the repository, and `work`, a folder
# for the script's own files, which goes when the script ends. It counts what passed and what failed.
set -u
top=$(CDPATH='' cd -- "$(dirname -- "$0")/.." && pwd)
# shellcheck source=tests/ending.sh
. "$top/tests/ending.sh"
work=$(mktemp -d)
remove_at_end "$work"
passed=0
failed=0

pass() {
    passed=$((passed + 1))
}

# fail TEXT: counts a failure, and says what it is.
fail() {
    failed=$((failed + 1))
    echo "$1"
}

# judge WHAT COMMAND ..: counts whether the command ends well, and says what failed.
judge() {
    judged=$1
    shift
    if "$@"; then pass; else fail "$judged failed"; fi
}

# The last command of each script: the closing line, and the status.
finish() {
    echo "$passed passed, $failed failed"
    [ "$failed" = 0 ]
}

# give_up TEXT: ends the script, since nothing can be tried.
give_up() {
    echo "$1"
    echo "0 passed, 1 failed"
    exit 1
}

need_program() {
    "$top/tests/proved" || give_up "no proved program stands: ./sdlrun prove"
}

# Builds what refuses an allocation of a program that is started with it.
build_refuse() {
    cc -shared -fPIC -O1 -o "$work/refuse.so" "$top/tests/refuse.c" -ldl || give_up "tests/refuse.c was not built"
}

# Copies the cases to $work/tests/cases, with links beside them to what their files name. It makes each file that a case gives as
# a change of another. One that can't be made is missing, and so its case fails.
copy_cases() {
    mkdir "$work/tests"
    cp -R "$top/tests/cases" "$work/tests"
    ln -s "$top/tests/bases" "$work/tests"
    ln -s "$top/examples" "$work"
    for change in "$work"/tests/cases/*/*.diff; do
        file=${change%.diff}
        # the first line is '--- BASE', and a time may follow
        read -r _ base _ <"$change"
        patch --silent --force --fuzz=0 --output="$file" "${change%/*}/$base" "$change" || rm -f "$file"
    done
}

# The content that a case gives under a name, written whole, as repeated lines or as so many letters.
content() {
    if [ -e "$1" ]; then
        cat "$1"
    elif [ -e "$1-letters" ]; then
        head -c "$(cat "$1-letters")" /dev/zero | tr '\0' a
    elif [ -e "$1-repeat" ]; then
        awk '{ n = $1; sub(/^[0-9]+ ?/, ""); for (i = 0; i < n; i++) print }' "$1-repeat"
    fi
}

# Whether a file has the lines of all files of a folder, those of each in their order.
in_order() {
    [ "$(cat "$2"/* | wc -l)" = "$(wc -l <"$1")" ] || return 1
    for part in "$2"/*; do
        grep -Fxf "$part" "$1" | cmp -s - "$part" || return 1
    done
}

# output_fits CASE FILE: whether the file, to which a program wrote, is what the case wants. Where its content is fixed, it stands in
# $work/stdout.wanted.
output_fits() {
    if [ -d "$1/stdout-in-order" ]; then
        in_order "$2" "$1/stdout-in-order"
    elif [ -f "$1/stdout-in-any-order" ]; then
        sort "$1/stdout-in-any-order" >"$work/stdout.wanted"
        sort "$2" | cmp -s - "$work/stdout.wanted"
    else
        cmp -s "$2" "$work/stdout.wanted"
    fi
}
