# The deepest stack of each exported function, from 'objdump -dr --no-show-raw-insn': frames are added up along every path of calls.
# A frame is the return address, each push and what is subtracted from rsp, as if all of them were reached; a function that calls
# none may use the red zone besides. What memcpy, memmove and memset need is not counted but for their return address. It fails where the
# sum would not be an upper bound: a call or a stack that is not known, or a function that reaches itself.
function refuse(why) { print "stack: " why " in " name > "/dev/stderr"; wrong = 1; exit 1 }
function hex(digits,    i, n) {
    for (i = 1; i <= length(digits); i++) n = 16 * n + index("0123456789abcdef", substr(digits, i, 1)) - 1
    return n
}
function deepest(f,    i, most, below, list, n) {
    if (f == "memcpy" || f == "memmove" || f == "memset") return 8
    if (!(f in frame)) { name = f; refuse("no code") }
    if (f in under) { name = f; refuse("a cycle") }
    under[f] = 1
    most = f in calls ? 0 : 128
    n = split(calls[f], list, "\n")
    for (i = 1; i < n; i++) { below = deepest(list[i]); if (below > most) most = below }
    delete under[f]
    return frame[f] + most
}
/^[0-9a-f]+ <.*>:$/ { name = $2; gsub(/^<|>:$/, "", name); frame[name] = 8; next }
$2 ~ /^push/ { frame[name] += 8 }
$2 ~ /^sub/ && /,%rsp$/ {
    if ($3 !~ /^\$0x[0-9a-f]+,%rsp$/) refuse("a stack that grows by " $3)
    size = $3; gsub(/^\$0x|,%rsp$/, "", size); frame[name] += hex(size)
}
$2 ~ /^(lea|and|mov|xchg)/ && /,%rsp$/ { refuse("a stack pointer that is set") }
$2 ~ /^enter/ { refuse("a stack that grows by enter") }
$2 ~ /^call/ && $3 ~ /^\*/ { refuse("a call by pointer") }
# Where a call, or a jump to another function, goes its relocation says.
/R_X86_64_(PLT32|PC32)/ && ($3 ~ /^\.text\./ || $3 ~ /^[a-z_]/) {
    to = $3; sub(/^\.text\./, "", to); sub(/[-+]0x[0-9a-f]+$/, "", to)
    calls[name] = calls[name] to "\n"; known++
}
$2 ~ /^call/ { made++ }
END {
    if (wrong) exit 1
    if (known < made || made == 0) { name = "all"; refuse(made " calls, of which " known " are known") }
    for (f in frame) if (f ~ /^lanthewg_/) print f, deepest(f)
}
