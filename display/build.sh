# Builds the example display, target/host/display.
#
# SCHOONLEECH_LIB  an archive to link instead of the proved one; rt is then not run
set -u
cd "$(dirname "$0")/.." || exit 1
. common/building.bash
build_example display
