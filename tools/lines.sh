# What `rt` says of a must-fail edit, for tools/edit and tools/refusals. Wants $root, the repository's folder.
#
# `rt ci` and `rt must-fail` print a line for each edit, and keep no log of it:
#     rt: must-fail CRATE/EDIT.edit: refused, as it must be: PLACE: what the check says first, cut at 160 letters
# It is the first thing said, but for what only follows from a proof that names what the edit took away; where there is nothing else, or the
# prover met a limit of its own, the line says so in brackets.

# Prints of each edit a line: CRATE/EDIT, a tab, and what is said of it.
edits_told() { # OUTPUT
    sed -n 's|^rt: must-fail \([A-Za-z0-9_]*/[A-Za-z0-9_.-]*\)\.edit: |\1	|p' "$1"
}

# Prints why a refusal shows nothing; nothing where it is for a fact. An edit is there to make a fact false. Where it breaks the text of the
# definitions, or takes away a name that a proof uses (a definition's, or that of a need of the code), the proof is refused whatever the fact.
wrong_reason() { # WHAT IS SAID
    case $1 in
        'refused, as it must be') echo "the check says nothing of it" ;;
        'refused, as it must be (only because a proof file names '*) echo "a name is not in scope" ;;
        'refused, as it must be (only by a limit '*) echo "the prover met a limit of its own" ;;
        'refused, as it must be: specs/'* | 'refused, as it must be: ./specs/'* | 'refused, as it must be: note: specs/'*) echo "what the check says begins in specs/" ;;
        'refused, as it must be: '*'is not in scope'* | 'refused, as it must be: '*'has no `'*'` that can be named'*) echo "a name is not in scope" ;;
        'refused, as it must be: '*) ;;
        *) echo "it is not refused" ;;
    esac
}

# Prints the reason for which tools/refusals.txt lists an edit; nothing where it does not.
exception() { # CRATE/EDIT
    EDIT=$1 awk '
        /^#/ { next }
        index($0, ENVIRON["EDIT"] ": ") == 1 { print substr($0, length(ENVIRON["EDIT"]) + 3) }' "$root/tools/refusals.txt"
}
