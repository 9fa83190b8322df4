# What the scripts of this folder begin with: the program `alpaca`, of which ALPACA names another build, and an empty folder to work in, which goes
# when they end.
set -eu
top=$(cd "$(dirname "$(readlink -f "${BASH_SOURCE[0]}")")/.." && pwd)
alpaca=${ALPACA:-$top/bin/alpaca}
work=$(mktemp -d)
trap 'rm -rf "$work"' EXIT
cd "$work"
