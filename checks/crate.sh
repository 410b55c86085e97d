#!/usr/bin/env bash
# SPDX-License-Identifier: MIT
# Checks one crate over what rt ci has proved of the crates below it: checks/crate.sh --help
set -u
exec python3 -B "$(dirname "${BASH_SOURCE[0]}")/crate.py" "$@"
