#!/usr/bin/env bash
# Builds the proved static library and the proved program, and puts them where README, the host and C callers look: target/staticlib/libexports.a and target/bin/quindaf.
set -euo pipefail
cd "$(dirname "$0")/.."
mkdir -p target/staticlib target/bin
(cd crates/exports && rt lib)
cp crates/exports/out/libexports.a target/staticlib/
(cd crates/quindaf && rt run)
cp crates/quindaf/out/quindaf target/bin/
