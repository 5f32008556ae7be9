# The tables of tests/tables: short texts and images by the line, with what the program has to do with each. tests/check
# reads this, after tests/compare.sh. Lines that begin with # say what a table holds.
tab=$(printf '\t')

# The bytes of a text of a table: \n, \t and \r stand for what they do in C, and \0 for a byte by three octal digits.
text_bytes() {
    printf '%b' "$1"
}

# The bytes of hexadecimal digits.
hex_bytes() {
    env printf '%b' "$(echo "$1" | sed 's/../\\x&/g')"
}

# The hexadecimal digits of bytes.
hex_digits() {
    od -An -v -tx1 | tr -d ' \n'
}

# The rows of a table: rows FILE
rows() {
    grep -v '^#' "tests/tables/$1"
}

# Each text is refused at a line: check_faults FILE WORD..
check_faults() {
    table=$1
    shift
    rows "$table" >"$seen/rows"
    while IFS=$tab read -r line kind text <&3; do
        text_bytes "$text" >"$seen/in"
        echo "refused line $line: $kind" >"$seen/due"
        compare "$table: line $line: $kind: $text" 2 /dev/null "$seen/due" "$@" <"$seen/in"
    done 3<"$seen/rows"
}

# Each long text, in parts of which each is repeated so often, is refused at a line.
check_long_faults() {
    rows long.faults >"$seen/rows"
    while IFS=$tab read -r line kind parts <&3; do
        printf '%s\n' "$parts" | awk -F"$tab" '{
            for (i = 1; i < NF; i += 2) {
                part = $(i + 1)
                gsub(/\\n/, "\n", part)
                for (k = 0; k < $i; k++) printf "%s", part
            }
        }' >"$seen/in"
        echo "refused line $line: $kind" >"$seen/due"
        compare "long.faults: line $line: $kind" 2 /dev/null "$seen/due" run <"$seen/in"
    done 3<"$seen/rows"
}

# Each image is refused at an offset, as `list` and as `run --image` tell.
check_image_faults() {
    rows image.faults >"$seen/rows"
    while IFS=$tab read -r offset kind hex <&3; do
        hex_bytes "$hex" >"$seen/in"
        echo "refused image at $offset: $kind" >"$seen/due"
        compare "image.faults: at $offset: $kind: $hex" 2 /dev/null "$seen/due" list <"$seen/in"
    done 3<"$seen/rows"
}

# What two commands write, the second from what the first wrote: through FIRST SECOND <IN
through() {
    "$program" "$1" >"$seen/first" && "$program" "$2" <"$seen/first"
}

# Tells a row whose answer is another: same NAME DUE GOT
same() {
    count=$((count + 1))
    [ "$2" = "$3" ] && return
    differ=$((differ + 1))
    printf '%s\n' "$1: due is $2, written was $3"
}

# The images of texts.
check_images() {
    rows asm.images >"$seen/rows"
    while IFS=$tab read -r hex text <&3; do
        text_bytes "$text" >"$seen/in"
        same "asm.images: $text" "$hex" "$("$program" asm <"$seen/in" | hex_digits)"
    done 3<"$seen/rows"
}

# The listings of texts of sets, each also listed once more.
check_listings() {
    rows set.listings >"$seen/rows"
    while IFS=$tab read -r text listing <&3; do
        for from in "$text" "$listing"; do
            text_bytes "$from" >"$seen/in"
            same "set.listings: $from" "$(text_bytes "$listing")" "$(through asm list <"$seen/in")"
        done
    done 3<"$seen/rows"
}

# The texts that are made of plans.
check_plans() {
    rows plan.listings >"$seen/rows"
    while IFS=$tab read -r text listing <&3; do
        text_bytes "$text" >"$seen/in"
        same "plan.listings: $text" "$(text_bytes "$listing")" "$("$program" plan <"$seen/in")"
    done 3<"$seen/rows"
}

# The words that flows bring to their sink.
check_flows() {
    rows flow.words >"$seen/rows"
    while IFS=$tab read -r words text <&3; do
        text_bytes "$text" >"$seen/in"
        got=$(through flow run <"$seen/in" | sed -n 's/^word //p' | tr '\n' ' ')
        same "flow.words: $text" "$words" "${got% }"
    done 3<"$seen/rows"
}

# Lines of the reports of sets that are made of plans and flows.
check_made() {
    rows made.lines >"$seen/rows"
    while IFS=$tab read -r command text lines <&3; do
        text_bytes "$text" >"$seen/in"
        through "$command" run <"$seen/in" >"$seen/report"
        printf '%s\n' "$lines" | tr '\t' '\n' >"$seen/lines"
        same "made.lines: $text" "$(cat "$seen/lines")" "$(grep -xF -f "$seen/lines" "$seen/report")"
    done 3<"$seen/rows"
}

# The set of a tile with this program, whose source has three words, and a claim of its one word.
claimed_set() {
    printf '%s\n' 'grid 1 1' 'limit 100' 'source 1 0 0 W' 'sink 1 0 0 E 1' 'feed 1 0 0 W 3 4 5' 'tile 0 0' \
        'move $1, $24' 'move $2, $24' 'move $3, $24'
    text_bytes "$1"
    printf '%s\n' 'move $24, $4' halt end 'switch 0 0' 1:W\>P 1:W\>P 1:W\>P 1:P\>E halt end \
        claim 'grid 1 1' 'input x 3' 'input y 4' 'input z 5'
    text_bytes "$2"
    echo 'out s'
}

# The first line that is written of a program and a claim, without the cycles.
check_claims() {
    rows prove.lines >"$seen/rows"
    while IFS=$tab read -r line tile claim <&3; do
        claimed_set "$tile" "$claim" >"$seen/in"
        same "prove.lines: $tile: $claim" "$line" "$("$program" prove <"$seen/in" | sed -n '1s/ cycles .*//;1p')"
    done 3<"$seen/rows"
}

# Images that are listed and assembled again, each front of them, and one byte more.
check_fronts() {
    rows image.again >"$seen/rows"
    while IFS=$tab read -r hex again <&3; do
        hex_bytes "$hex" >"$seen/image"
        same "image.again: $hex" "$again" "$(through list asm <"$seen/image" | hex_digits)"
        size=$((${#hex} / 2))
        at=0
        while [ "$at" -lt "$size" ]; do
            head -c "$at" "$seen/image" >"$seen/in"
            same "a front of $at bytes of $hex" "refused image at $at: short" "$("$program" list <"$seen/in" 2>&1)"
            at=$((at + 1))
        done
        echo >>"$seen/image"
        same "a byte behind $hex" "refused image at $size: extra" "$("$program" list <"$seen/image" 2>&1)"
    done 3<"$seen/rows"
}

# All tables.
check_tables() {
    for table in set tile switch; do
        check_faults "$table.faults" run
    done
    check_faults plan.faults plan
    check_faults flow.faults flow
    check_faults claim.faults prove
    check_faults rows.faults prove
    check_long_faults
    check_image_faults
    check_images
    check_listings
    check_plans
    check_flows
    check_made
    check_claims
    check_fronts
}
