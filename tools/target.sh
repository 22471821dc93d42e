# target.sh: for which machines there is code, in one place. Sourced, with TARGET set to one of these names, or empty for this very machine; sets triple and
# flags (what clang compiles for), system (linux, or none for bare metal), bits (of an address) and cc (a C compiler for it, by Debian's name).
#   aarch64       x86_64       riscv64       armv7         Linux
#   aarch64-none  x86_64-none  riscv64-none  armv7-none    bare metal: no system, no C library, no access that is not aligned
TARGETS='aarch64 x86_64 riscv64 armv7 aarch64-none x86_64-none riscv64-none armv7-none'
case " $TARGETS " in
*" ${TARGET:-aarch64} "*) ;;
*) echo "no such target: $TARGET; there are: $TARGETS" >&2; exit 1 ;;
esac
case ${TARGET:-$(uname -m)} in *-none) system=none ;; *) system=linux ;; esac
bits=64
case ${TARGET:-$(uname -m)} in
aarch64) triple=aarch64-unknown-linux-gnu flags= cc=aarch64-linux-gnu-gcc ;;
aarch64-none) triple=aarch64-unknown-none-elf flags='-mstrict-align' cc=aarch64-linux-gnu-gcc ;;
x86_64) triple=x86_64-unknown-linux-gnu flags=-march=x86-64 cc=x86_64-linux-gnu-gcc ;;
x86_64-none) triple=x86_64-unknown-none-elf flags='-march=x86-64 -mno-sse -mno-mmx -mno-red-zone' cc=x86_64-linux-gnu-gcc ;;
riscv64) triple=riscv64-unknown-linux-gnu flags='-march=rv64gc -mabi=lp64d' cc=riscv64-linux-gnu-gcc ;;
riscv64-none) triple=riscv64-unknown-none-elf flags='-march=rv64gc -mabi=lp64d -mcmodel=medany' cc=riscv64-linux-gnu-gcc ;;
armv7) bits=32 triple=armv7-unknown-linux-gnueabihf flags='-march=armv7-a -mfpu=vfpv3-d16 -mfloat-abi=hard' cc=arm-linux-gnueabihf-gcc ;;
armv7-none) bits=32 triple=armv7-unknown-none-gnueabi flags='-march=armv7-a -mfloat-abi=soft -mno-unaligned-access' cc=arm-linux-gnueabihf-gcc ;;
esac
[ -n "${TARGET:-}" ] || cc=cc
