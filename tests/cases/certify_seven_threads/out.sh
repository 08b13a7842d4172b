# The orders of T2 to T7: for each thread from the last to the first, those of the others with the thread behind them. The
# low thread stands behind them all.
awk '
    function orders(others, behind,    names, count, place, kept, i) {
        count = split(others, names, " ")
        if (count == 0) print "order" behind, "T1 points"
        for (place = count; place > 0; place--) {
            kept = ""
            for (i = 1; i <= count; i++) if (i != place) kept = kept " " names[i]
            orders(kept, " " names[place] behind)
        }
    }
    BEGIN { orders("T2 T3 T4 T5 T6 T7", "") }'
echo 'certified 1 in 7'
