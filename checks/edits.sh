#!/usr/bin/env bash
# SPDX-License-Identifier: MIT
# Tries the edits of crates/*/more-edits and keeps the ledger of what came of them: checks/edits.sh --help
set -u
exec python3 -B "$(dirname "${BASH_SOURCE[0]}")/edits.py" "$@"
