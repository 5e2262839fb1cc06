#!/usr/bin/env bash
# Makes the report of every example (or of the wallets that are named) and, where Chromium is there, looks at each as a reader would:
# a screenshot of the whole page at 800 and at 1400 pixels, and the pages of a printer as a PDF. It fails if a page is wider than its window.
#
#     tools/look.sh [-d DIRECTORY] [WALLET ...]
#
# Whoever changes the page runs it and looks at the files, which are in target/look unless another directory is named. The gate does not
# need Chromium; it has tools/wallet/tests/report.rs.
set -u
cd "$(dirname "$0")/.." || exit 2
out=$PWD/target/look
if [ "${1:-}" = -d ]; then out=$(realpath -m "$2") && shift 2 || exit 2; fi
if [ $# -eq 0 ]; then set -- examples/*.wallet; fi
wallet=target/cargo/release/wallet
cargo build --release --offline --quiet --package wallet || exit 2
mkdir -p "$out" || exit 2
chromium=$(command -v chromium || command -v chromium-browser || command -v google-chrome)
# a directory of its own, so that a browser that is open is left alone
profile=$(mktemp -d)
trap 'rm -rf "$profile"' EXIT

# runs the browser without a window and without a network
browse() {
    "$chromium" --headless --no-sandbox --disable-gpu --hide-scrollbars --user-data-dir="$profile" --host-resolver-rules="MAP * ~NOTFOUND" \
        --allow-file-access-from-files --virtual-time-budget=10000 "$@" 2> /dev/null
}

# prints how wide and how high a page is in a window of a width
size() {
    cat > "$profile/size.html" <<END
<iframe id="page" src="file://$1" style="width:$2px;height:900px;border:0"></iframe>
<script>onload = () => { const page = document.getElementById('page').contentDocument.documentElement;
  document.body.textContent = 'size ' + page.scrollWidth + ' ' + page.scrollHeight; };</script>
END
    browse --window-size=1600,1000 --dump-dom "file://$profile/size.html" | sed -n 's/.*size \([0-9]* [0-9]*\).*/\1/p'
}

status=0
for file in "$@"; do
    name=$(basename "$file" .wallet)
    page=$out/$name.html
    "$wallet" report "$file" -o "$page"
    # 1 says that the question is refused, which is no mistake of the page
    if [ $? -gt 1 ]; then status=1 && continue; fi
    if [ -z "$chromium" ]; then continue; fi
    for width in 800 1400; do
        read -r wide high <<< "$(size "$page" $width)"
        if [ "${wide:-0}" -ne $width ]; then echo "$name: ${wide:-unknown} pixels wide in a window of $width" && status=1; fi
        browse --window-size=$width,"${high:-900}" --screenshot="$out/$name-$width.png" "file://$page"
    done
    browse --print-to-pdf="$out/$name.pdf" --no-pdf-header-footer "file://$page"
    echo "$name: looked at"
done
if [ -z "$chromium" ]; then echo "the reports are in $out; no Chromium to look at them with"; fi
exit $status
