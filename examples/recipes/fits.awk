# How many individuals fit a query of so many nodes (-v nodes=8): a row for each number of answer variables, and along
# it the operators that look ahead, from 0 to 8.
BEGIN {
    for (variables = 1; variables <= 4; variables++) {
        printf "%d:", variables
        for (ahead = 0; ahead <= 8; ahead++) {
            fit = int((67108864 / (nodes * 2 ^ ahead)) ^ (1 / variables) + 1e-9)
            printf " %d", fit < 4096 ? fit : 4096
        }
        print ""
    }
}
