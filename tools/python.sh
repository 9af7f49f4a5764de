# shellcheck shell=sh
# python.sh: sourced. The system's own Python 3, before one that the path has.
#   python_ready    puts its name into `python`. Where it is missing it is installed from Debian's packages, with all words on standard
#                   error, or said to be missing
python_ready() {
    python=/usr/bin/python3
    [ -x "$python" ] || python=$(command -v python3) && return
    python=python3
    { apt-get update && apt-get install -y python3; } >&2 || {
        echo "Python 3 is missing, and could not be installed" >&2
        return 1
    }
}
