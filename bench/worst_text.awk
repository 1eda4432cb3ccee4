# Prints a text of 224 processes of 252 steps, each with as many ways as a choice may have at two depths: the check looks each
# step up among all whole paths, and finds no fault.
BEGIN {
    for (process = 0; process < 224; process++) {
        printf "process w%d\n", process
        for (step = 0; step < 55; step++) printf "c s%d a 1 1\n", step
        printf "p s%d a 1 1\n", step++
        for (outer = 0; outer < 8; outer++) {
            print outer == 0 ? "choose" : "or"
            for (inner = 0; inner < 8; inner++) {
                print inner == 0 ? "choose" : "or"
                ways = outer == 7 && inner > 3 ? 4 : 3
                for (way = 0; way < ways; way++) {
                    print way == 0 ? "choose" : "or"
                    last = outer == 7 && inner == 7 && way == ways - 1
                    printf "%s s%d a 1 1\n", last ? "r" : "c", step++
                }
                print "done"
            }
            print "done"
        }
        print "done\nend"
    }
}
