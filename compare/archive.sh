# Read by run and bench: goes to the repository's top, has the archive there and builds the driver.

top=$(cd "$(dirname "$0")/.." && pwd) || exit 2
cd "$top" || exit 2
scripts/archive || exit
SLOT_ARCHIVE_DIR=$top/target/staticlib
export SLOT_ARCHIVE_DIR
CARGO_TARGET_DIR=$top/compare/target
export CARGO_TARGET_DIR
cargo build --release --quiet --manifest-path compare/driver/Cargo.toml || exit
