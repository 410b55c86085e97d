#!/usr/bin/env bash
# SPDX-License-Identifier: MIT
# Measures the gate, crate by crate: bench/gate.sh --help
set -u
exec python3 -B "$(dirname "${BASH_SOURCE[0]}")/gate.py" "$@"
