#!/bin/bash
# Runs the built language server with a real client, neovim, and compares what neovim shows of
# examples/sessions/neovim.toml with examples/sessions/neovim.expected, which was worked out by hand.
#
#     bash scripts/lsp/client.sh [--programs FOLDER]
#
# The program is `filterset` in its crate, or in FOLDER. If there is no neovim, the script installs it by apt-get;
# if it can't, it skips the client. The last line is 'N passed, M failed', or '0 passed, 0 failed, 1 skipped'.
set -uo pipefail
source "$(dirname "${BASH_SOURCE[0]}")/../lib.sh"
program=$PWD/crates/filterset/out/filterset
if [ "${1:-}" = --programs ]; then program=$(realpath "$2")/filterset; fi
need "$program"

# Installs neovim, if this machine can.
install() { { apt-get update && apt-get install -y --no-install-recommends neovim; } > "$room/installed" 2>&1; }

if ! command -v nvim > /dev/null && ! install; then
    echo "client: skipped: there is no neovim, and apt-get can't install it"
    echo "0 passed, 0 failed, 1 skipped"
    exit
fi

HOME=$room FILTERSET=$program timeout 60 nvim --headless -u NONE -i NONE -n examples/sessions/neovim.toml \
    -c 'luafile scripts/lsp/neovim.lua' -c 'qall!' > "$room/shown" 2> "$room/said" < /dev/null
if diff examples/sessions/neovim.expected "$room/shown"; then
    pass
else
    fail neovim "see the lines above; it said:"
    cat "$room/said"
fi
finish
