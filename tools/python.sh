# shellcheck shell=bash disable=SC2154
# To be sourced by a command of tests or bench that stands beside a file of its name in Python: runs this file. It finds the package
# tlxtools, what the tests share, and the modules of the folders that the command names in the array `modules`. Nothing is left compiled.
top=$(cd "$(dirname "${BASH_SOURCE[0]}")/.." && pwd)
paths=$top/tools:$top/tests
for folder in "${modules[@]+"${modules[@]}"}"; do
  paths+=:$top/$folder
done
PYTHONPATH=$paths exec python3 -B "$(readlink -f "$0").py" "$@"
