# Writes, as octal escapes for printf, a folio of 32 symbols, 16 shapes and 4,096 nodes: the numbers come from a fixed row, so it is always the same.
function next_below(n) {
    row = (row * 75 + 74) % 65537
    return int(row * n / 65537)
}

function put(b) { text = text sprintf("\\%03o", b); size++ }

function put_word(w) { put(w % 256); put(int(w / 256)) }

# A symbol with so many children: every second time the first one.
function symbol_with(children) {
    if (next_below(2) == 0) return first[children]
    return first[children] + next_below(first[children + 1] - first[children])
}

function put_blanks(n) { while (n-- > 0) put_word(65535) }

# A symbol of one to four children, one of which is a symbol again, and of that one's perhaps one more; the rest are blanks.
function put_shape(levels,    children, one) {
    children = levels == 0 ? 0 : 1 + next_below(3)
    put_word(symbol_with(children))
    if (children == 0) return
    one = next_below(children)
    put_blanks(one)
    put_shape(levels - 1)
    put_blanks(children - one - 1)
}

# How many children the next node gets: at depth 12 none, and never so many or so few that the tree does not end with its last node.
function children_of(depth, open, left,    children) {
    children = depth < 12 ? next_below(5) : 0
    if (open + children == 1 && left > 1) children = 1 + next_below(2)
    while (open + children > left) children--
    return children
}

# The nodes in preorder: `open` subtrees are to come, todo[d] of them at depth d, and as many nodes as `left`.
function put_score(    left, open, depth, children) {
    open = 1
    depth = 0
    todo[0] = 1
    for (left = 4096; left > 0; left--) {
        while (todo[depth] == 0) depth--
        children = children_of(depth, open, left)
        put_word(symbol_with(children))
        todo[depth]--
        todo[++depth] = children
        open += children - 1
    }
}

BEGIN {
    row = 1
    split("0 8 14 26 30 32", starts, " ")
    for (i = 0; i < 6; i++) first[i] = starts[i + 1]
    for (i = 0; i < 5; i++) for (j = first[i]; j < first[i + 1]; j++) put(i)
    shapes = size
    for (i = 0; i < 16; i++) put_shape(1 + i % 3)
    score = size
    put_score()
    end = size
    put_word(end); put_word(end - shapes); put_word(end - score)
    put(83); put(67)
    printf "%s", text
}
