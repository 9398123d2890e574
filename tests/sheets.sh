# Sheets at the ends of a sheet's length and of the program's room, for tests/program, tests/plan and tests/host: a
# function prints each, and its comment says what it offers.

# The W lines of so many places, all of one cost: waits PLACES COST.
waits() {
    awk -v places="$1" -v cost="$2" 'BEGIN { for (n = 0; n < places; n++) print "W," n "," cost }'
}

# Sheet A.
sheet_a() {
    echo S,4,6,0,3,0
    waits 4 1,0,0
    printf '%s\n' C,0,1,1,0,4 C,0,2,1,3,0 C,1,3,1,0,4 C,2,3,1,3,0 O,1,1,2
}

# The longest sheet that is read, 14,536 bytes; nothing leads away from its start.
longest() {
    echo S,64,255,63,62,99
    waits 64 60000,59999,12345
    awk 'BEGIN {
        for (n = 0; n < 256; n++) print "C," 10 + int(n / 32) "," 20 + n % 32 ",60000," 10000 + 7 * n ",54321"
        for (n = 0; n < 256; n++) print "X," 10 + int(n / 32) "," 20 + n % 32 "," 100 + n % 156
        for (n = 0; n < 256; n++) print "O," 10 + int(n / 8) "," 100 + n % 8 "," 255 - n % 8
    }'
}

# The longest sheet with line feeds up to so many bytes.
padded() {
    longest
    awk -v more=$(($1 - 14536)) 'BEGIN { while (more-- > 0) print "" }'
}

# A sheet with 257 O lines.
many_lines() {
    echo S,64,9,0,8,0
    waits 64 1,0,0
    awk 'BEGIN { for (n = 0; n < 257; n++) print "O," int(n / 5) ",0," n % 5 }'
}

# A sheet with 200 front costs, or with 201: many_costs 0 | 1. From place 10 by one of ten places and one of twenty to
# place 41, which is free at step 255 alone: the choice adds k to the first figure and 199 - k to the second, k from 0
# to 199. The last cost is that of a way by 42 and 43, which alone adds to the third figure.
many_costs() {
    echo S,44,255,10,41,0
    waits 44 60000,60000,60000
    awk -v more="$1" 'BEGIN {
        for (a = 0; a < 10; a++) print "C,10," 11 + a "," 20 * a "," 180 - 20 * a ",0"
        if (more) print "C,10,42,0,0,1"
        for (a = 0; a < 10; a++) for (b = 0; b < 20; b++) print "C," 11 + a "," 21 + b "," b "," 19 - b ",0"
        for (b = 0; b < 20; b++) print "C," 21 + b ",41,0,0,0"
        if (more) print "C,42,43,0,0,0\nC,43,41,0,0,0"
        print "O,41,0,254"
    }'
}

# The page of the sheet with 200 costs. Its ways wait for 252 steps, by the tie rule at place 10, the lowest number. The
# leading arrivals: 1 at place 10, 10 at the ten places, 200 at the twenty, 200 at place 41.
many_costs_page() {
    awk 'BEGIN {
        print "F,200,411"
        for (step = 0; step <= 252; step++) waiting = waiting ",10"
        for (k = 0; k < 200; k++) {
            print "J," 252 * 60000 + k "," 252 * 60000 + 199 - k "," 252 * 60000 ",255"
            print "P" waiting "," 11 + int(k / 20) "," 21 + k % 20 ",41"
        }
    }'
}

# A sheet with some goal and 2,000 leading arrivals, or with 2,001: many_arrivals GOAL 0 | 1. Places 2n - 1 and 2n, for
# n from 1 to 9, are reached at step n by n choices of the figure to which 1, 2, 4 and so on are added: 1,023 arrivals
# with the start, 2^(n - 1) at each place. Then places where ways end: 19 with 512 arrivals, 20 with 256, 21 with 128,
# 22 with 64, 23 with 16, 24 with 1 and 25 with the last. An arrival after a wait is led by the one without it.
many_arrivals() {
    echo "S,26,10,0,$1,0"
    waits 26 1,1,1
    awk -v more="$2" 'BEGIN {
        for (n = 1; n <= 9; n++) for (from = 2 * n - 3; from < 2 * n - 1; from++) if (from >= 0) {
            print "C," from "," 2 * n - 1 "," 2 ^ (n - 1) ",0,0"
            print "C," from "," 2 * n ",0," 2 ^ (n - 1) ",0"
        }
        ends = split("17,19 18,19 17,20 15,21 13,22 9,23 1,24 1,25", pairs, " ")
        for (n = 1; n < ends + more; n++) print "C," pairs[n] ",0,0,0"
    }' | sort -t, -k2,2n -k3,3n
}
