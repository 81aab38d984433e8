# What the launcher tells people, all of it from the tables of docs/: what can be said, and what a last line means.
# shellcheck shell=bash disable=SC2154

# The heading of docs/FORMATS.md under which the last lines of a command stand.
lasts_of() {
    case $1 in
        audit) echo "The last line of an audit" ;;
        make) echo "The last line of a script that is made" ;;
        order) echo "The last line of an order" ;;
        serve) echo "The last line of serving" ;;
        *) echo "The last line" ;;
    esac
}

# The rows of the tables under a heading, by their first cell: the cells stand between tabs, without the marks of code.
rows_under() {
    awk -v heading="## $2" '
        /^## / { is_here = ($0 == heading) }
        is_here && /^\| / {
            sub(/^\| */, "")
            sub(/ *\|$/, " ")
            gsub(/ \| */, "\t")
            sub(/ $/, "")
            gsub(/\]\([^)]*\)/, "")
            gsub(/`/, "\047")
            gsub(/\[/, "")
            print
        }' "$top/docs/$1"
}

# The cells of the first such row whose first cell begins with this word, or is it.
row_of() {
    rows_under "$1" "$2" | awk -F'\t' -v wanted="$3" '
        {
            first = $1
            gsub(/\047/, "", first)
            if (first == wanted || index(first, wanted " ") == 1) { print; exit }
        }'
}

# What can be said, with an example of each.
help() {
    cat >&2 <<END
aire run WORLD SCRIPT   runs a script in a new world. WORLD is a world file or @notes, @shops or @posts, which come with
                        the program; SCRIPT is a file, or - for standard input:
    ./aire run @notes examples/undo-a-note.script
    ./aire run examples/guestbook.json examples/guestbook.script
    echo 'ask notes ann PUT /n/a hi' | ./aire run @notes -
aire audit DUMP WORKERS judges the services that a script wrote down by dump, in at most WORKERS threads, from 1 to 64:
    ./aire audit examples/write-it-down.dump 2
aire make SEED N        makes a script of N requests by a number, runs it, and prints in one line what it comes to:
    ./aire make 878 3
aire order DUMP         finds one order of their requests in which all of them could have run as one program:
    ./aire order examples/write-it-down.dump
aire serve WORLD        serves a world over HTTP until an operator stops it; it wants the program that ./aire build makes. Operators ask
                        its services by ./aire-console, whose --help tells what:
    ./aire serve examples/guestbook.json
    ./aire-console examples/guestbook.json guestbook log
aire serve --trial WORLD
                        serves it for this machine alone, by a program that isn't proved:
    ./aire serve --trial examples/guestbook.json
aire build              proves and builds the program:
    ./aire build
aire test               runs all that a test says, without the proofs:
    ./aire test

A line of a script is one of these; docs/FORMATS.md has the forms of their parts:

END
    rows_under FORMATS.md Scripts | awk -F'\t' '
        $1 ~ /^\047[a-z]/ && $3 ~ /^\047[a-z]/ {
            gsub(/^\047|\047$/, "", $1)
            gsub(/^\047|\047$/, "", $3)
            printf "%s\n    %s\n    e.g. %s\n", $1, $2, $3
        }' >&2
}

# Tells in a line what the last line of a run means that ended with this status.
explain() {
    local status=$1 last=$2 about row because look
    case $status:$last in
        2:"usage: word "* | 4:"read fault" | 7:"door fault" | 8:"worker not started" | 9:"receipt "*)
            [ "$status" = 9 ] && row=$(row_of FORMATS.md "$lasts" receipt) || row=$(row_of FORMATS.md "$lasts" "$last")
            about=${last#usage: }
            because=$(cut -f 3 <<<"$row") look=$(cut -f 4 <<<"$row") ;;
        3:"script refused line "*)
            read -r _ _ _ line _ number _ <<<"$last"
            row=$(row_of FORMATS.md Scripts "$number") about="line $line of the script is refused"
            because=$(cut -f 2 <<<"$row") look=$(cut -f 3 <<<"$row") ;;
        3:"dump refused line "*)
            read -r _ _ _ line _ number _ <<<"$last"
            row=$(row_of FORMATS.md Dumps "$number") about="line $line of the dump is refused"
            [ "$line" = 0 ] && about="the dump is refused"
            because=$(cut -f 3 <<<"$row") look=$(cut -f 4 <<<"$row") ;;
        3:"world refused 6 "*)
            read -r _ _ _ name number byte _ <<<"$last"
            row=$(row_of LANGUAGE.md "The text form" "$number") about="the program of $name is refused at byte $byte of its text"
            because=$(cut -f 3 <<<"$row") look="that byte, which is $(cut -f 2 <<<"$row")" ;;
        3:"world refused 7 "*)
            read -r _ _ _ name number line _ <<<"$last"
            row=$(row_of FORMATS.md Rules "$number") about="the rules of $name are refused at line $line of their text"
            because=$(cut -f 3 <<<"$row") look=$(cut -f 4 <<<"$row") ;;
        3:"world refused "*)
            read -r _ _ number what <<<"$last"
            row=$(row_of FORMATS.md "World files" "$number") about="the world is refused${what:+, for $what}"
            because=$(cut -f 2 <<<"$row") look=$(cut -f 3 <<<"$row") ;;
        *) return ;;
    esac
    [ -n "$because" ] && say "$about: $because${look:+. Look for: $look} (docs/FORMATS.md)"
}

