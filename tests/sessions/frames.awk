# A session's line: the frame that it sends, and what stands behind ' = '. AB*256 is the byte AB 256 times; after '!' a frame is
# taken as it stands.
function bytes(s,    out, parts, n, i, pair, k) {
    n = split(s, parts, " ")
    for (i = 1; i <= n; i++) {
        if (split(parts[i], pair, "*") == 2) { for (k = 0; k < pair[2]; k++) out = out pair[1] } else out = out parts[i]
    }
    return out
}
function left_of(line) { return substr(line, 1, index(line, " = ") - 1) }
function right_of(line) { return substr(line, index(line, " = ") + 3) }
function frame_of(line,    left) {
    left = left_of(line)
    return left ~ /^!/ ? substr(left, 2) : bytes(left)
}
