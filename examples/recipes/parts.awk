# Lines `NAME snap ..` into so many files, part0.txt and on (-v n=4): all lines of a name into one, in their order.
BEGIN { letters = "0123456789abcdefghijklmnopqrstuvwxyzABCDEFGHIJKLMNOPQRSTUVWXYZ_-." }
!($1 in part) {
    hash = 0
    for (at = 1; at <= length($1); at++) hash = (hash * 31 + index(letters, substr($1, at, 1))) % 65521
    part[$1] = hash % n
}
{ print > ("part" part[$1] ".txt") }
