#!/usr/bin/env bash
# outside.sh: what a user takes away is built, and held beside the published Rust and beside the rules written a second time.
. "$(dirname "$0")/begin.sh"
needs build native
exec bash oracle/suite.sh
