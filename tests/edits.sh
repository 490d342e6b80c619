# Sourced by ./test. `rt ci` says why it refused each edit that must fail. One that is refused for a name out of scope or for a field that is not there is
# refused whatever the contract says, so it shows nothing. `rt` calls most of these bad, and says of others that a proof file names what the edit took away.

# Stops at such an edit in a log of `rt ci`, and at one that it calls bad, which fails nothing there.
look_at_edits() {
    local log=$1 empty
    empty=$(grep -E '^rt: must-fail [^ ]+: refused, as it must be' "$log" |
        grep -E 'only because a proof file names|: error: .*(is not in scope|has no field|is not a field|is not a constructor|was not admitted)') &&
        red "refused, but for no fact:"$'\n'"$empty"
    grep -q '^rt: ok;' "$log" || red "rt ci has no line 'rt: ok'"
    if grep -Eq '^rt: ok;.*, [1-9][0-9]* bad' "$log"; then red "edits that must fail are bad: BAD EDIT, above"; fi
}
