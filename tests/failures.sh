# Sourced by the checks: goes to the repository's folder and counts what fails. A check ends with `[ "$failures" -eq 0 ]`.
set -u
cd "$(dirname "$0")/.." || exit 2
failures=0

fail() {
    echo "FAILED: $1"
    failures=$((failures + 1))
}
