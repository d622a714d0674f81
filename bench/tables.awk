# The tables of bench/run, from the lines of bench/bench.c: a table, b, M, K, what was timed, nanoseconds. The least of each counts.
BEGIN { FS = "\t" }
{
    row = $1 FS $2 FS $3 FS $4
    if (!(row in seen)) {
        seen[row] = 1
        rows[$1] = rows[$1] (rows[$1] == "" ? "" : ";") row
    }
    if (!((row, $5) in least) || $6 < least[row, $5])
        least[row, $5] = $6
}

# A table: the columns in nanoseconds, and those that are shown as ratios to the first of these.
function table(name, title, times, ratios,    columns, counts, i, j, n, list, line) {
    print title "\n"
    line = "| b | M | K |"
    n = split(times, columns, ";")
    for (i = 1; i <= n; i++)
        line = line " " columns[i] ", ns |"
    counts = n
    n = split(ratios, columns, ";")
    for (i = 1; i <= n; i++)
        line = line " " columns[i] " |"
    print line
    line = "|"
    for (i = 1; i <= 3 + counts + n; i++)
        line = line "---|"
    print line
    n = split(rows[name], list, ";")
    for (i = 1; i <= n; i++)
        print row_of(list[i], times, ratios)
    print ""
}

function row_of(row, times, ratios,    parts, columns, first, i, n, line) {
    split(row, parts, FS)
    line = "| " parts[2] " | " parts[3] " | " parts[4] " |"
    n = split(times, columns, ";")
    first = least[row, columns[1]]
    for (i = 1; i <= n; i++)
        line = line sprintf(" %.0f |", least[row, columns[i]])
    n = split(ratios, columns, ";")
    for (i = 1; i <= n; i++)
        line = line sprintf(" %.2f |", least[row, columns[i]] / (columns[i] ~ /no pattern/ ? least[row, "T, no pattern"] : first))
    return line
}

# A bar, and the most of a ratio over the rows of a table that fit a size (b, M, K; 0: any). less: what is taken off before.
function bar(what, limit, name, b, m, k, over, under, times, less,    list, parts, i, n, ratio, most) {
    n = split(rows[name], list, ";")
    most = 0
    for (i = 1; i <= n; i++) {
        split(list[i], parts, FS)
        if ((b && parts[2] != b) || (m && parts[3] != m) || (k && parts[4] != k))
            continue
        ratio = (least[list[i], over] - (less == "" ? 0 : least[list[i], less])) / least[list[i], under] / times
        if (ratio > most)
            most = ratio
    }
    printf "| %s | %s | %.2f | %s |\n", what, limit, most, most <= limit + 0 ? "holds" : "MISSED"
}

END {
    table("store", "T is the test of bench/tuned.c, the test that of the library; all ratios are to T. With + two calls together. At M = 16, grow + shrink goes\nfrom 15 units to 16 and back.", \
        "T;test", "test;test, no pattern;memcpy;plain C;correct;erase + teach;read;read, unit out;list;list, unit out;unit out + repair;grow + shrink")
    table("raise", "Raise and grow of the same store, each of a copy of its bytes; K is the level before. Ratios to memcpy + grow.", "memcpy + grow;memcpy + raise;memcpy", "memcpy + raise")
    table("half", "A hall that is half full, with one unit and with two of a group out, as ratios to T. At K = 1 the second unit is empty, at K = 3 a quarter\nfull.", \
        "T;test", "test;read, one out;read, two out;list, one out;list, two out;one out + repair;two out + repair")
    table("strokes", "Growing in two strokes: the plan of a store, and a commit of it beside a grow, both of a copy of its bytes. Ratios to T.", "T;plan", "plan;memcpy + grow;memcpy + commit")
    print "| bar | at most | measured | |"
    print "|---|---|---|---|"
    bar("test / T, b = 64", "1.05", "store", 64, 0, 0, "test", "T", 1)
    bar("test / T, b = 64, M = 16, K = 3", "1.00", "store", 64, 16, 3, "test", "T", 1)
    bar("test / T, b = 4", "1.30", "store", 4, 0, 0, "test", "T", 1)
    bar("test / T, no pattern, b = 64, M = 16, K = 3", "0.95", "store", 64, 16, 3, "test, no pattern", "T, no pattern", 1)
    bar("read / test, b = 64", "1.15", "store", 64, 0, 0, "read", "test", 1)
    bar("correct / test, b = 64", "1.15", "store", 64, 0, 0, "correct", "test", 1)
    bar("erase, teach / test, b = 64", "1.15", "store", 64, 0, 0, "erase + teach", "test", 2)
    bar("list / T, b = 64, M = 16, K = 3", "1.50", "store", 64, 16, 3, "list", "T", 1)
    bar("read, unit out / T, b = 64, M = 16, K = 3", "1.30", "store", 64, 16, 3, "read, unit out", "T", 1)
    bar("unit out + repair / T, b = 64, M = 16, K = 3", "4.00", "store", 64, 16, 3, "unit out + repair", "T", 1)
    bar("grow + shrink / T, b = 64, M = 16, K = 3", "9.00", "store", 64, 16, 3, "grow + shrink", "T", 1)
    bar("raise / grow", "1.00", "raise", 0, 0, 0, "memcpy + raise", "memcpy + grow", 1)
    bar("plan / T, b = 64, M = 15", "2.00", "strokes", 64, 15, 0, "plan", "T", 1)
    bar("(commit - grow) / T, b = 64, M = 15", "1.20", "strokes", 64, 15, 0, "memcpy + commit", "T", 1, "memcpy + grow")
}
