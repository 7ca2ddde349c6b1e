#!/bin/sh
# Counts, at a commit, the lines in src/ that docs/DESIGN-PASS.md judges one by one, point for point. With -v it prints them.
# Usage: tools/places.sh [-v] [COMMIT]
cd "$(dirname "$0")/.." || exit 1
verbose=
[ "$1" = -v ] && { verbose=1; shift; }
commit=${1:-HEAD}

show() {
    lines=$(git grep -nE "$2" "$commit" -- 'crates/*/src/*.rt' ':!crates/*/src/tests.rt' | grep -v '^[^:]*:[^:]*:[0-9]*: *//' | sed 's/^[^:]*://')
    printf '%-58s %s\n' "$1" "$(printf '%s' "$lines" | grep -c .)"
    [ -n "$verbose" ] && printf '%s\n' "$lines" | sed 's/^/    /'
}

show '1 enums' '^ *(pub(\(crate\))? )?enum '
show '1 functions that answer a flag' '\) -> bool|^\) -> bool'
show '1 fields that are flags' '^ *(pub(\(crate\))? )?[a-z_0-9]+: bool,'
show '1 tests that give up by hand' 'let (Some|Ok)\(.*\) = .*else|return (Err|None)|Err\([a-z]+\) => Err'
show '3 loops' '^ *(for|while|loop)\b'
show '4 printing, conversion, copying by hand' 'fn (fmt|name|named|number|of_width|digit|is_digit|are_digits|first_space|bytes_of|byte_or_0|copy_[a-z_]+)\b'
show '5 constants as parameters' 'const (K1|R1|T|R2): usize|[:<] *[A-Z][0-9a-z]*<[0-9, ]+>|::<[A-Za-z, ]*[0-9]+[0-9, ]*>'
show '5 requires' '^ *requires '
show '6 fixed buffers and arrays' '[]a-z0-9_] *; *([0-9]+|[A-Z]+)\]|ArrayVec<'
show '6 counts beside a buffer' '\b(count|length|len): usize'
show '7 matches on what to do' '^ *match '
show '7 closures' '\|[^|]*\| *[^|]'

# Twins: functions of one name in two files, and the lines of code and proofs.
names=$(git grep -hoE '^ *(pub(\(crate\))? )?fn [a-z_0-9]+' "$commit" -- 'crates/*/src/*.rt' ':!crates/*/src/tests.rt' | sed -E 's/.*fn //' | sort | uniq -d)
printf '%-58s %s\n' '2 names that more than one function has' "$(printf '%s' "$names" | grep -c .)"
[ -n "$verbose" ] && printf '%s\n' "$names" | sed 's/^/    /'
for part in src specs proofs; do
    lines=$(git ls-tree -r --name-only "$commit" | grep -E "^crates/[^/]*/$part/" | while read -r f; do git show "$commit:$f"; done | wc -l)
    printf '%-58s %s\n' "8 lines in $part" "$lines"
done
answers=$(git grep -hE '^pub [A-Za-z_0-9-]+ : goal\.' "$commit" -- 'crates/*/proofs/*Answers.antt' | grep -c .)
printf '%-58s %s\n' '8 answers' "$answers"
