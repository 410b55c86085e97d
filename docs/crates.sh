#!/usr/bin/env bash
# SPDX-License-Identifier: MIT
# Writes the tables of crates of ARCHITECTURE.md: docs/crates.sh --help
set -u
exec python3 -B "$(dirname "${BASH_SOURCE[0]}")/crates.py" "$@"
