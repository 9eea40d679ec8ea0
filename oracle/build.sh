#!/bin/sh
# usage: ./build.sh [SRC]
# SRC is the folder with the Rust files; without it, this repository's docs/src/src. Needs rustc and cargo
# 1.85 or newer (edition 2024), python3 and, once, as root:
#   apt-get update && apt-get install -y --no-install-recommends \
#     librust-serde-json-dev librust-serde-dev librust-serde-derive-dev librust-regex-dev \
#     librust-lazy-static-dev librust-nix-dev librust-num-traits-dev librust-uuid-dev
# CARGO_REGISTRY names another directory source with those crates, if wanted.
set -eu
HERE=$(cd "$(dirname "$0")" && pwd)
SRC=$(cd "${1:-$HERE/../docs/src/src}" && pwd)
cd "$HERE"
if [ -z "${CARGO_REGISTRY:-}" ]; then
  crate=$(dpkg -L librust-serde-json-dev 2>/dev/null | grep '/registry/serde_json-[^/]*$' || true)
  [ -n "$crate" ] || { echo "build.sh: install the librust-*-dev packages first" >&2; exit 1; }
  CARGO_REGISTRY=$(dirname "$crate")
fi
python3 patch.py "$SRC" target/gen
cargo build --release --offline \
  --config 'source.crates-io.replace-with="debian"' \
  --config "source.debian.directory=\"$CARGO_REGISTRY\""
echo "built: target/release/oracle"
