# gears.sh: where the published Rust is, in one place: GEARS names the folder of its vdp.rs and io.rs.
# Sourced, in the project's folder, it sets and exports GEARS, and has_gears tells whether the two files are there.
# Run as a command it fails, with a line that says how to get them, where they are not.
: "${GEARS:=../shared/docs/src/src}"
if [ -d "$GEARS" ]; then GEARS=$(cd "$GEARS" && pwd); fi
export GEARS

has_gears() { [ -f "$GEARS/vdp.rs" ] && [ -f "$GEARS/io.rs" ]; }
no_gears="no vdp.rs and io.rs in $GEARS: set GEARS to the src folder of the repository anisse/gears at commit 0d576c35e2"

case $0 in
*gears.sh) has_gears || { echo "gears: $no_gears" >&2; exit 1; } ;;
esac
