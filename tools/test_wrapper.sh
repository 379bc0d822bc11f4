#!/usr/bin/env bash
# Tests bin/peano: a program whose sources are not proved is never run. Works on a copy of the repository, in which an `rt`
# of a few lines stands for the checker: it refuses sources that hold the word BROKEN as the real one refuses a body that
# does not meet its contract (status 1, the old program left where it is), and else builds a program that copies its input.
# Ends with status 0 where all is as it should be.
set -u
top=$(cd "$(dirname "${BASH_SOURCE[0]}")/.." && pwd) || exit 1
room=$(mktemp -d) || exit 1
trap 'rm -rf "$room"' EXIT
copy=$room/copy
body=$copy/crates/peano_keys/src/lib.rt
failed=0

mkdir "$copy" "$room/with_rt" "$room/without_rt" || exit 1
(cd "$top" && find bin crates crates.txt HANDLES -name out -prune -o -type f -print0 | xargs -0 cp --parents -t "$copy")
# The commands that the script may use, so that a path can have no `rt`.
for tool in bash sh env cat chmod cmp dirname find grep head mkdir rm sha256sum sort tail xargs; do
    ln -s "$(command -v "$tool")" "$room/without_rt/$tool"
done

cat >"$room/with_rt/rt" <<'STUB'
#!/usr/bin/env bash
echo "$1" >>"$ROOM/calls"
case $1 in
    version) echo "$(cat "$ROOM/kit") logic 0123456789abcdef" ;;
    run)
        echo "crate peano_io: modules loaded=1 checked=1" >&2
        echo "logic=proved functions=30" >&2
        if grep -rqw BROKEN .. --include='*.rt'; then
            echo "fn peano_keys::broken: no proof" >&2
            echo "error: BROKEN does not meet its contract" >&2
            echo "logic=not-proved" >&2
            exit 1
        fi
        mkdir -p out
        printf '#!/bin/sh\n# %s\necho "$@" >&2\ncat\nexit "${WANTED:-0}"\n' "$RANDOM" >out/peano
        chmod +x out/peano
        cat >/dev/null
        cat stdout
        exit "$(cat "$ROOM/ends")"
        ;;
esac
STUB
chmod +x "$room/with_rt/rt"
echo rattle-kit-13f >"$room/kit"
echo 0 >"$room/ends"

# Runs the script on one line; what it wrote, told and ended with is kept.
peano() {
    : >"$room/calls"
    printf 'a line\n' | ROOM=$room PATH=$path "$copy/bin/peano" "$@" >"$room/wrote" 2>"$room/told"
    status=$?
}

# Says which check does not hold, and what the script told.
check() {
    local what=$1
    shift
    "$@" && return
    printf 'test_wrapper: %s\n' "$what" >&2
    sed 's/^/    /' "$room/told" >&2
    failed=1
}

ended() { [ "$status" = "$1" ]; }
wrote_nothing() { [ ! -s "$room/wrote" ]; }
wrote_the_line() { [ "$(cat "$room/wrote")" = 'a line' ]; }
told() { grep -q -- "$1" "$room/told"; }
told_not() { ! told "$1"; }
told_a_line() { [ "$(wc -l <"$room/told")" = 1 ]; }
called() { grep -q run "$room/calls"; }
called_not() { ! called; }

path=$room/without_rt
peano
check "without rt nothing runs" ended 1
check "without rt nothing is written" wrote_nothing
check "without rt one line says so" told_a_line
check "the line names the kit" told 'rt is not on the path.*rattle-kit-13f'

path=$room/with_rt:$room/without_rt
peano
check "the first call builds" called
check "the first call runs the program" wrote_the_line
check "and ends with its status" ended 0
check "a line tells how long it takes" told 'ten minutes'
check "a line tells each crate that passes" told 'peano_io is proved'
check "the kit that is named is not told of" told_not 'another kit'

WANTED=6 peano a word
check "the second call builds nothing" called_not
check "words and status are the program's" ended 6
check "and it tells nothing of its own" told_a_line
check "words reach the program" told '^a word$'
check "input reaches the program" wrote_the_line

cp "$body" "$room/kept"
echo '// BROKEN' >>"$body"
for call in first second; do
    peano
    check "with a body that is not proved the $call call fails" ended 1
    check "the $call call runs no program" wrote_nothing
    check "the $call call tells the checker's words" told 'BROKEN does not meet its contract'
    check "the $call call names the function" told 'peano_keys::broken: no proof'
    check "the $call call says that nothing was run" told 'nothing was run'
    check "the $call call says why it proves" told 'the sources have changed'
done
[ -x "$copy/crates/peano/out/peano" ] || check "the old program still lies there" false

# The mended body is older than the program: times of files do not tell.
cp "$room/kept" "$body"
touch -d '2 days ago' "$body"
peano
check "a body that was mended is built and run" wrote_the_line

echo '# a comment' >>"$copy/crates.txt"
peano
check "a changed list of crates is seen" called
rm "$copy/crates/peano_keys/must-fail/"* 2>/dev/null
peano
check "what no proof reads is not looked at" called_not
rm "$body"
peano
check "a file that is gone is seen" called
cp "$room/kept" "$body"
peano

echo 'tampered' >>"$copy/crates/peano/out/peano"
peano
check "a program that was changed is built again" called

echo '// an edit' >>"$body"
echo 2 >"$room/ends"
peano
check "where rt stops nothing is run" wrote_nothing
check "and the call fails" ended 1
echo 0 >"$room/ends"

echo rattle-kit-14a >"$room/kit"
peano
check "another kit is told in one line" told 'another kit than rattle-kit-13f.*rattle-kit-14a'

[ "$failed" = 0 ] && echo "bin/peano: its test passed" >&2
exit "$failed"
