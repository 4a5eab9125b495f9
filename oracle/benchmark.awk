# docs/BENCHMARK.md: what `compare.sh bench`, `compare.sh heap`, `stack.sh` and `p4est.sh` print, as tables in the place of the
# lines of benchmark_text.md that are one word in capitals.

function kib(bytes) { return sprintf("%.0f KiB", bytes / 1024) }

function calls_table(    n, name) {
    print "| Call and input | Port | Original | Ratio | Original's heap |"
    print "|---|---|---|---|---|"
    for (n = 1; n <= calls; n++) {
        name = names[n]
        print "| " name " | " port[name] " | " original[name] " | " ratio[name] " | " kib(heap[name]) " |"
    }
}

function by_thousands(n) { return n + 0 < 1000 ? n : by_thousands(int(n / 1000)) sprintf(",%03d", n % 1000) }

function stack_table(    n) {
    print "| Call | Stack, in bytes |"
    print "|---|---|"
    for (n = 1; n <= stacks; n++) {
        print "| " stack_names[n] " | " by_thousands(stack[n]) " |"
    }
}

# Every row of the other tables in which the port takes longer.
function slower(    n, name) {
    for (n = 1; n <= calls; n++) {
        name = names[n]
        if (ratio[name] > 1) print "- " name ": " ratio[name]
    }
    for (n = 1; n <= boards; n++) {
        name = board_names[n]
        if (board_ratio[name, 10240] > 1) print "- " name ", 10,240 slots: " board_ratio[name, 10240]
    }
    for (n = 1; n <= forests; n++)
        if (forest_ratio[n] > 1) print "- balance beside p4est, " forest_name[n] ": " forest_ratio[n]
}

function hostile_table(call,    n, name) {
    print "| Board | Cells before | Cells after | Port | Original | Ratio |"
    print "|---|---|---|---|---|---|"
    for (n = 1; n <= boards; n++) {
        name = board_names[n]
        if (board_call[name] == call)
            print "| " board_kind[name] " | " board_cells[name, 10240] " | " board_port[name, 10240] " | " \
                board_original[name, 10240] " | " board_ratio[name, 10240] " |"
    }
}

function growth_row(side, name) { return side[name, 1024] " | " side[name, 4096] " | " side[name, 16384] }

function growth_table(call,    n, name) {
    print "| Board | Port, 1,024 | 4,096 | 16,384 | Exponents | Original, 1,024 | 4,096 | 16,384 | Exponents |"
    print "|---|---|---|---|---|---|---|---|---|"
    for (n = 1; n <= boards; n++) {
        name = board_names[n]
        if (board_call[name] == call)
            print "| " board_kind[name] " | " growth_row(board_port, name) " | " port_exponents[name] " | " \
                growth_row(board_original, name) " | " original_exponents[name] " |"
    }
}

function test_table(    n) {
    print "| Table of 16,384 slots | Cells | ns a cell |"
    print "|---|---|---|"
    for (n = 1; n <= tests; n++) print "| " test_name[n] " | " test_cells[n] " | " test_time[n] " |"
}

function leaf_count_table(    n) {
    print "| Cells | ns a call |"
    print "|---|---|"
    for (n = 1; n <= leaf_counts; n++) print "| " by_thousands(count_cells[n]) " | " count_time[n] " |"
}

function p4est_table(    n) {
    if (forests == 0) { print p4est_words "."; return }
    print "| Forest | Finest level | Leaves before | Leaves after | Port | p4est | Ratio |"
    print "|---|---|---|---|---|---|---|"
    for (n = 1; n <= forests; n++)
        print "| " forest_name[n] " | " forest_level[n] " | " forest_leaves[n] " | " forest_port[n] " | " forest_p4est[n] \
            " | " forest_ratio[n] " |"
}

# What of the line lies between the first places of two expressions.
function between(from, to,    rest) {
    match($0, from)
    rest = substr($0, RSTART + RLENGTH)
    return match(rest, to) ? substr(rest, 1, RSTART - 1) : rest
}

# Two counts of a line, as two cells of a table.
function counts(words) { sub(/ to /, " | ", words); return words }

FNR == NR && /, growth from / { growth = $0; next }
FNR == NR && /: stack [0-9]+ of / {
    stack[++stacks] = between(": stack ", " of ")
    sub(/: stack .*/, "")
    stack_names[stacks] = $0
    next
}

FNR == NR && /^(balance|conform), .*, (exponents|[0-9]+ slots, [0-9]+ to [0-9]+ cells): port / {
    name = $0
    sub(/, (exponents|[0-9]+ slots, [0-9]+ to [0-9]+ cells): port .*/, "", name)
    if ($0 ~ /, exponents: /) {
        port_exponents[name] = between(": port ", ", original")
        original_exponents[name] = between(", original ", "$")
        next
    }
    if (!(name in board_call)) {
        board_names[++boards] = name
        board_call[name] = substr(name, 1, 7)
        board_kind[name] = substr(name, 10)
    }
    slots = substr($0, length(name) + 3) + 0
    board_cells[name, slots] = counts(between(slots " slots, ", " cells: port "))
    board_port[name, slots] = between(": port ", ", original ")
    board_original[name, slots] = between(", original ", ", ratio ")
    board_ratio[name, slots] = between(", ratio ", ",")
    next
}

FNR == NR && /^leaves, .* ns a cell$/ {
    test_name[++tests] = between("^leaves, ", ", [0-9]+ cells: ")
    test_cells[tests] = between("^leaves, " test_name[tests] ", ", " cells: ")
    test_time[tests] = between(" cells: ", " ns a cell")
    next
}

FNR == NR && /^leaf count, [0-9]+ cells: .* ns$/ {
    count_cells[++leaf_counts] = between("^leaf count, ", " cells: ")
    count_time[leaf_counts] = between(" cells: ", " ns$")
    next
}

FNR == NR && /^p4est left out/ { p4est_words = $0; next }
FNR == NR && /^p4est, / {
    forest_name[++forests] = between("^p4est, ", ", level ")
    forest_level[forests] = between(", level ", ", ")
    forest_leaves[forests] = counts(between(", level [0-9]+, ", " leaves: "))
    forest_port[forests] = between(": port ", ", p4est ")
    forest_p4est[forests] = between(" ms, p4est ", ", ratio ")
    forest_ratio[forests] = between(", ratio ", ",")
    next
}

FNR == NR && /: heap of the port / {
    name = $0
    sub(/: heap .*/, "", name)
    heap[name] = between(", of the original ", " bytes")
    next
}

FNR == NR && /: port .*, original .*, ratio / {
    name = $0
    sub(/: port .*/, "", name)
    names[++calls] = name
    port[name] = between(": port ", ", original ")
    original[name] = between(", original ", ", ratio ")
    ratio[name] = between(", ratio ", ",")
    next
}

FNR == NR { print "not understood: " $0 >"/dev/stderr"; exit 1 }

/^CALLS$/ { calls_table(); next }
/^SLOWER$/ { slower(); next }
/^BALANCE$/ { hostile_table("balance"); next }
/^BALANCE_GROWTH$/ { growth_table("balance"); next }
/^CONFORM$/ { hostile_table("conform"); next }
/^CONFORM_GROWTH$/ { growth_table("conform"); next }
/^TEST$/ { test_table(); next }
/^LEAF_COUNT$/ { leaf_count_table(); next }
/^P4EST$/ { p4est_table(); next }
/^GROWTH$/ { print "- " growth "."; next }
/^STACK$/ { stack_table(); next }
{ print }
