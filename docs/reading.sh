#!/usr/bin/env bash
# SPDX-License-Identifier: MIT
# Writes READING.md: docs/reading.sh --help
set -u
exec python3 -B "$(dirname "${BASH_SOURCE[0]}")/reading.py" "$@"
