# Writes a lawful record of single steps, one a turn, after one start line, in which each side's pieces go to
# and fro on paths of their own, far from those of the other side.
#
#   -v size=BYTES       the record has this size: no position stands twice, and a comment fills the last bytes
#   -v barred=NUMBER    the game goes forward, and then back on the way that it came, again and again, until so
#                       many positions stand twice
#
# Gold's eight pieces pass through every way of standing on their paths, one step a turn (a reflected code of
# mixed bases). Silver's cat goes to and fro between g6 and h6, and each time that Gold has been through them
# all, another of Silver's pieces makes one step of the same kind of code instead.
function path(side, letter, column, line, length_of_path) {
    count[side]++
    piece[side, count[side]] = letter
    col[side, count[side]] = column
    row[side, count[side]] = line
    len[side, count[side]] = length_of_path
    way[side, count[side]] = 1
    at[side, count[side]] = 0
    ways[side] = (count[side] == 1 ? 1 : ways[side]) * length_of_path
    stand[column, line] = letter
}
# The next step of a side's code.
function tick(side,   i) {
    for (;;) {
        for (i = 1; i <= count[side]; i++) {
            if (at[side, i] + way[side, i] >= 0 && at[side, i] + way[side, i] < len[side, i]) {
                go(side, i, way[side, i])
                return
            }
            way[side, i] = -way[side, i]
        }
    }
}
# One piece of a side goes one square east or west.
function go(side, i, by,   from) {
    from = substr("abcdefgh", col[side, i] + at[side, i], 1) row[side, i]
    at[side, i] += by
    moves++
    moved_side[moves] = side
    moved_piece[moves] = i
    moved_by[moves] = by
    say(piece[side, i] from (by > 0 ? "e" : "w"))
}
function say(step,   text) {
    text = number (gold ? "g " : "s ") step
    if (size && written + length(text) + 1 > size - 2) { full = 1; return }
    print text
    written += length(text) + 1
    if (!gold) number++
    gold = !gold
    if (barred) look()
}
# Counts the positions that stand twice.
function look(   key, i) {
    key = gold
    for (i = 1; i <= count["g"]; i++) key = key at["g", i]
    for (i = 1; i <= count["s"]; i++) key = key at["s", i]
    key = key at["t", 1]
    if (++seen[key] == 2) twice++
}
function forward() {
    tick("g")
    if (full) return
    round++
    tick(size && round % (ways["g"] - 1) == 0 ? "s" : "t")
}
# Goes forward for some rounds and back, and then makes a step with another of Silver's pieces.
function there_and_back(rounds,   first, last, k, i) {
    first = moves + 1
    for (k = 1; k <= rounds; k++) forward()
    last = moves
    for (k = last - 1; twice < barred; k -= 2) {
        go(moved_side[k], moved_piece[k], -moved_by[k])
        if (twice < barred && k > first) go(moved_side[k + 1], moved_piece[k + 1], -moved_by[k + 1])
        if (k == first) break
    }
    if (twice == barred) return
    for (i = 1; i <= count["g"]; i++) way["g", i] = 1
    tick("s")
}
BEGIN {
    path("g", "E", 1, 1, 4); path("g", "M", 5, 1, 4); path("g", "H", 1, 2, 4); path("g", "H", 5, 2, 4)
    path("g", "D", 1, 4, 4); path("g", "D", 5, 4, 4); path("g", "C", 1, 3, 2); path("g", "C", 4, 3, 2)
    path("s", "e", 1, 8, 4); path("s", "m", 5, 8, 4); path("s", "h", 1, 7, 4); path("s", "h", 5, 7, 4)
    path("s", "d", 1, 6, 2); path("s", "d", 4, 6, 2)
    path("t", "c", 7, 6, 2)
    stand[7, 3] = "R"; stand[8, 5] = "r"
    text = "start 2g ["
    for (line = 8; line >= 1; line--)
        for (column = 1; column <= 8; column++)
            text = text ((column, line) in stand ? stand[column, line] : " ")
    text = text "]"
    print text
    written = length(text) + 1
    number = 2
    gold = 1
    if (barred) look()
    while (size && !full) forward()
    while (twice < barred) there_and_back(barred < 2 * ways["g"] ? int(barred / 2) + 2 : ways["g"] - 2)
    if (size) {
        printf "#"
        for (left = size - written - 2; left > 0; left--) printf "."
        printf "\n"
    }
}
