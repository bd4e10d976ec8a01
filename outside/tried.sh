#!/bin/sh
# tried.sh: the wrong answers of docs/FIRMNESS.md that the gate has no time for. Each edit of outside/tried/CRATE/ is made in a
# copy of its crate, and must be refused because a fact fails. One that does not compile shows nothing, and counts as failed; so
# does one of which rt tells first that a name is gone, or a mere consequence. rt tells one error of each edit: what stands behind
# it is not looked at.
#
#     outside/tried.sh [CRATE...]      every crate that has such edits, by default
#
# It works in a temporary copy of the repository; `rt must-fail` tries the edits there, over what this machine has proved of the
# same files before.
set -eu
cd "$(dirname "$0")/.."
if [ $# -eq 0 ]; then
    for folder in outside/tried/*/; do set -- "$@" "$(basename "$folder")"; done
fi
for crate; do
    [ -d "outside/tried/$crate" ] || { echo "tried.sh: there is no outside/tried/$crate" >&2; exit 2; }
done

room=$(cd "$(mktemp -d)" && pwd -P)
trap 'rm -rf "$room"' EXIT
trap 'exit 130' INT TERM
git ls-files -z crates crates.txt | tar --null -T - -cf - | tar -xf - -C "$room"
rm -rf "$room"/crates/*/must-fail

# What rt says of an edit, cut to 160 letters by rt: "fact" or "other", the function, the goal that is not met, and why.
told_of() { # CRATE NAME
    LC_ALL=C awk -v where="$room/crates/$1/" -v begin="rt: must-fail $1/$2.edit: " '
        # the function around a line of a source file, or after it where the line is an attribute or a comment; an edit keeps
        # the lines of the file that it changes
        function function_at(file, line,    text, n, name) {
            while ((n++ < line || text ~ /^(#|\/\/)/) && (getline text < (where file)) > 0)
                if (match(text, /fn [a-z0-9_]+/)) name = substr(text, RSTART + 3, RLENGTH - 3)
            close(where file)
            return name
        }
        index($0, begin) != 1 { next }
        {
            said = substr($0, length(begin) + 1)
            # by a limit, only by what a proof file names, or not at all
            if (said !~ /^refused, as it must be: /) { print (said ~ /^refused/ ? "other" : "none") " " said; exit }
            sub(/^refused, as it must be: (note: )?(\.\/)?/, "", said)
            split(said, part, ":")
            place = part[1]
            sub(/^[^:]*:[0-9]+:[0-9]+: (error: )?/, "", said)
            place_is_source = place ~ /^src\//
            if (place_is_source) place = function_at(place, part[2])
            else {
                sub(/^proofs\//, "", place)
                sub(/\/(Proof|Answers|Invariants)\.antt$/, "", place)
                sub(/\.antt$/, "", place)
                gsub("/", "::", place)
            }
            goal = ""
            if (match(said, /^`[^`]*`: /)) { goal = substr(said, 2, RLENGTH - 4); said = substr(said, RLENGTH + 1) }
            else if (match(said, /\(`[^`]*`\)/)) goal = substr(said, RSTART + 2, RLENGTH - 4)
            # a fact fails where no name is gone and nothing is told as a mere consequence; of src/, where the goal is said not to be proved
            if (place_is_source && said !~ /it is not proved that/) { print "other " place ": " said; exit }
            kind = said ~ /which was rejected|was not admitted|not checked|has no field|has no `|is not in scope|can be named from here|expected type `(tie|goal)\.|write the clause/ ? "other" : "fact"
            print kind " " place (goal == "" ? "" : ", " goal) ": " said
            exit
        }' "$room/said"
}

tried=0 facts=0
for crate; do
    cp -R "outside/tried/$crate" "$room/crates/$crate/must-fail"
    (cd "$room" && rt must-fail "$crate") >"$room/said" 2>&1 </dev/null || :
    for edit in "outside/tried/$crate"/*.edit; do
        name=$(basename "$edit" .edit)
        tried=$((tried + 1))
        told=$(told_of "$crate" "$name")
        case $told in
        fact*) facts=$((facts + 1)) && echo "$crate/$name: refused at ${told#fact }" ;;
        other*) echo "$crate/$name: REFUSED FOR ANOTHER REASON: ${told#other }" ;;
        none*) echo "$crate/$name: ${told#none }" ;;
        *)
            echo "$crate/$name: NOT TRIED"
            tail -n 5 "$room/said"
            ;;
        esac
    done
    rm -rf "$room/crates/$crate/must-fail"
done
echo "$tried tried, $facts refused because a fact fails"
[ "$tried" -eq "$facts" ]
