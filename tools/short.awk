# short.awk MODULE.ll: the module for a processor of 32 bits: what moves or fills memory takes its length as 32 bits, as that processor's own functions do.
/@llvm\.mem(cpy|move|set)\./ && /i64/ {
    gsub(/\.i64\(/, ".i32(")
    if (/^declare/) gsub(/, i64,/, ", i32,")
    else if (match($0, /, i64 %[^,]+, i1 /)) {
        register = substr($0, RSTART + 6, RLENGTH - 11)
        print "  %short." ++count " = trunc i64 " register " to i32"
        sub(/, i64 %[^,]+, i1 /, ", i32 %short." count ", i1 ")
    } else sub(/, i64 /, ", i32 ")
}
{ print }
