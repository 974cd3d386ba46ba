# Sourced by the scripts: whether a check was refused for a fact, and not because a proof file no longer fits the code.
#
# A place is a function's folder of proofs or a file of laws, or FILE#GOAL, FILE#LAW. What a check's log says there is a fact: an answer or
# a law that doesn't hold, or a goal for which Rattle finds no proof; or it is of shape: a proof file that names what isn't there, or that
# antt can't read. What wasn't checked, since it cites something that was refused, says nothing.

# found LOG [PLACE]: what the log says at a place, or anywhere, a line each, which begins with 'fact' or 'shape'. Of a place with a goal or
# a law the facts are those of that one.
found() {
    awk -v place="${2-}" '
        function tell(kind, at, goal) {
            if (place == "" || (at == file && (law == "" || kind == "shape" || goal == law)))
                print kind " " $0
        }
        BEGIN { split(place, part, "#"); file = part[1]; law = part[2] }
        /^(\.\/)?(specs|proofs)\/[^ :]*\.antt:[0-9]+:[0-9]+: error: / {
            at = $1
            sub(/^\.\//, "", at)
            sub(/\.antt:.*/, "", at)
            sub(/\/(Answers|Invariants|Proof)$/, "", at)
            said = $0
            sub(/^[^ ]* error: /, "", said)
            goal = ""
            if (said ~ /^`/) { goal = substr(said, 2); sub(/`.*/, "", goal) }
            if (said ~ /^[0-9]+ declarations? that depends? on |was not admitted|which was rejected/) next
            if (goal == "" || said ~ /has no `|has no field|is not in scope|is no name|operand is missing|expected the end|cannot continue/)
                tell("shape", at, goal)
            else
                tell("fact", at, goal)
        }
        # goals that no search proves stand before the line of their function
        /^note: src\/[^ ]*: it is not proved that / {
            goal = $0
            sub(/^.*\(`/, "", goal)
            sub(/`\).*/, "", goal)
            open[++many] = goal
        }
        /^fn [^ ]*: / {
            at = $2
            sub(/:$/, "", at)
            sub(/^[^:]*::/, "", at)
            gsub(/::/, "/", at)
            if ($0 ~ /: (not proved|no proof)/)
                for (k = 1; k <= many; k++) tell("fact", "proofs/" at, open[k])
            many = 0
        }
    ' "$1"
}

# fact LOG [PLACE]: whether the log refuses something at the place, or anywhere, for a fact, and nothing there for its shape. Of a whole log
# the first refusal counts. `first` is the line that says so, or that says why not; it is empty where there is none.
fact() {
    local lines
    lines=$(found "$@")
    first=${lines%%$'\n'*}
    if [ -n "${2-}" ]; then first=$(grep -m 1 '^shape ' <<<"$lines" || echo "$first"); fi
    case $first in
    'fact '*) first=${first#fact } ;;
    *) first=${first#shape }; return 1 ;;
    esac
}
