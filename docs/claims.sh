#!/usr/bin/env bash
# SPDX-License-Identifier: MIT
# Writes the lists of CLAIMS.md: docs/claims.sh --help
set -u
exec python3 -B "$(dirname "${BASH_SOURCE[0]}")/claims.py" "$@"
