# calls.awk -v way=WAY MODULE.ll: the module with its C calls as another machine has them; all other lines stay.
#   way=answers   an answer of 32 bits fills its register by its sign
#   way=lengths   lengths come as 32 bits and are widened
/^define .*@vdp_[a-z_]+\(/ {
    calls++
    inside = 1
    count = 0
    if (way == "answers") sub(/ i32 @vdp_/, " signext i32 @vdp_")
    if (way == "lengths") {
        rest = $0
        while (match(rest, /i64 noundef %a[0-9]+/)) {
            wide[++count] = substr(rest, RSTART + 12, RLENGTH - 12)
            rest = substr(rest, RSTART + RLENGTH)
        }
        gsub(/i64 noundef %a/, "i32 noundef %a")
    }
    print
    next
}
/^}/ { inside = 0 }
inside && way == "lengths" {
    # i64 %a1 becomes i64 %wide.a1, which the first line of the body makes.
    while (match($0, /i64 %a[0-9]+/)) $0 = substr($0, 1, RSTART + 4) "wide." substr($0, RSTART + 5)
}
{ print }
inside && /^start:/ {
    for (k = 1; k <= count; k++) print "  %wide." substr(wide[k], 2) " = zext i32 " wide[k] " to i64"
}
END { if (!calls) { print "calls.awk: no call of include/vdp.h in this module" > "/dev/stderr"; exit 1 } }
