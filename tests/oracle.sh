# For the scripts beside it: builds the oracle, if it is not built, and makes a folder to work in.
# Sets root, oracle and work.
root=$(cd "$(dirname "$0")/.." && pwd)
cargo build --release --offline --quiet \
	--manifest-path "$root/oracle/Cargo.toml" --target-dir "$root/oracle/target"
oracle=$root/oracle/target/release/oracle
work=$(mktemp -d)
trap 'rm -rf "$work"' EXIT
