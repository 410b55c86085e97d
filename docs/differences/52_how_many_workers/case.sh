# SPDX-License-Identifier: MIT
yes worker | head -65 | ./apcu_run
