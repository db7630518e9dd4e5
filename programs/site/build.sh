#!/bin/sh
# Writes the pages as HTML with search:   programs/site/build.sh [FOLDER]      (`make site`; FOLDER, else build/site)
#
# It needs Python 3 and mkdocs (Debian: apt-get install mkdocs), and no network. Beside the pages it writes one for each clause, such as clause/S24.html.
# Search wants a server, such as `python3 -m http.server -d build/site`. If something is missing, the script says what, and ends with status 2.
set -eu

here=$(cd "$(dirname "$0")" && pwd)
top=$(cd "$here/../.." && pwd)
folder=${1:-$top/build/site}
command -v mkdocs > /dev/null || {
    echo "programs/site/build.sh: no mkdocs: install it (Debian: apt-get install mkdocs)" >&2
    exit 2
}
mkdir -p "$folder"
folder=$(cd "$folder" && pwd)
work=$(mktemp -d)
trap 'rm -rf "$work"' EXIT
python3 -B "$here/pages.py" "$work" "$folder"
mkdocs --quiet build --strict --clean --config-file "$work/mkdocs.yml"
rm -f "$folder/404.html" # it is for a server, at the top of one

# Debian's mkdocs has jQuery under another name than its theme asks for, and lacks the script by which tables get their style.
for script in $(grep -ohE 'js/[A-Za-z0-9_.-]+\.js' "$folder/index.html" | sort -u); do
    [ ! -e "$folder/$script" ] || continue
    case $script in
    js/jquery-*) cp "$(find "$folder/js" -name 'jquery-*.js' | sort | head -n 1)" "$folder/$script" ;;
    js/theme_extra.js) echo "\$('div.rst-content table').addClass('docutils');" > "$folder/$script" ;;
    esac
done
echo "$folder/index.html"
