# shellcheck shell=bash
# For scripts that leave a part out if a tool isn't there. `make test` gives a file for what they say, and says it again at its end.

# left_out WHAT WHY
left_out() {
    echo "left out: $1: $2" | tee -a "${LEFT_OUT:-/dev/null}"
}
