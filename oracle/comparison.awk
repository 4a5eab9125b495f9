# What `compare.sh all` prints, as docs/COMPARISON.md. A call's line has its counts, a group's last line its seconds; any other line
# of a group is a note.

function head() {
    print "# Comparison with the original"
    print ""
    print "Written by `oracle/write_comparison.sh" (words == "" ? "" : " " words) "`, which runs `oracle/compare.sh all" \
        (words == "" ? "" : " " words) "`; oracle/README.md says what the inputs of each group are."
    print "Port and original get the same inputs; every number that is written is compared, fractions by their bits, and text byte for byte."
    print "Where the original has no such call or goes on where docs/RULES.md refuses, the other side is `oracle/calls`, written from that page alone."
    print "Of `more splits` and `splits in parts` one input is several calls, all made by both sides; what is claimed of the rows that they"
    print "leave (oracle/README.md, `later`) is judged of the port's."
    print "Of contact the original says whether there is a border, and `oracle/calls` on which side and how long."
    print "Tables of 4,000 to 16,384 slots take the original too long: there the other side of balance and conform is an indexed form of the"
    print "passes (`oracle/compare/src/indexed.rs`), which is itself held to the original on small tables."
    print ""
    print "| Call | Inputs | Accepted | Refused, by number | Differ |"
    print "|---|---|---|---|---|"
}

function row(    call, inputs, accepted, refused, differ) {
    call = $0; sub(/: .*/, "", call)
    inputs = $0; sub(/^[^:]*: /, "", inputs); sub(/ inputs.*/, "", inputs)
    accepted = $0; sub(/.* inputs, /, "", accepted); sub(/ accepted.*/, "", accepted)
    refused = $0; sub(/.* value above 0\), /, "", refused); sub(/ refused.*/, "", refused)
    if ($0 ~ / refused \(/) {
        by = $0; sub(/.* refused \(/, "", by); sub(/\), [0-9]+ differ.*/, "", by)
        refused = refused ": " by
    }
    differ = $0; sub(/ differ.*/, "", differ); sub(/.*, /, "", differ)
    print "| " call " | " inputs " | " accepted " | " refused " | " differ " |"
    all += inputs; differing += differ
}

BEGIN { head() }
/ inputs, .* differ$/ { row(); next }
/: [0-9.]+ s, count [0-9]+, seed [0-9]+$/ { times[++groups] = $0; next }
{ notes[++others] = $0 }

END {
    print ""
    print all " inputs, " differing " differ."
    print ""
    for (n = 1; n <= others; n++) print "- " notes[n]
    print ""
    print "| Group | Random inputs asked for | Seed | Seconds |"
    print "|---|---|---|---|"
    for (n = 1; n <= groups; n++) {
        split(times[n], part, /: | s, count |, seed /)
        print "| " part[1] " | " part[3] " | " part[4] " | " part[2] " |"
    }
}
