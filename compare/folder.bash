# Where the comparison is built, to be sourced: a folder with links to the sources, outside of the repository, in which `rt ci` refuses links.
# COMPARE_BUILD names another one.
build=${COMPARE_BUILD:-${XDG_CACHE_HOME:-${HOME:-/tmp}/.cache}/rufflesquash/compare}
