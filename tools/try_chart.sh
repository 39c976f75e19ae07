#!/bin/sh
# Draws charts of examples/, and makes screenshots of them in Chromium, for a person to look at.
#
#   tools/try_chart.sh [FOLDER]      writes into FOLDER, out/chart unless given
#
# PIMTREE names the program, out/pimtree unless set. Chromium is Debian's package chromium.
set -eu
top=$(cd "$(dirname "$0")/.." && pwd)
folder=${1:-$top/out/chart}
mkdir -p "$folder"
folder=$(cd "$folder" && pwd)
cd "$top"
export PIMTREE="${PIMTREE:-$top/out/pimtree}" PYTHONPATH="$top/python"

# draw NAME WORDS..: NAME.svg and NAME.html, the charts of a trace with these words
draw() {
    name=$1
    shift
    for ending in svg html; do
        python3 -m pimtree chart -o "$folder/$name.$ending" "$@"
    done
}

# browse FILE WIDTH,HEIGHT OPTION: Chromium with a file of the folder
browse() {
    chromium --headless --no-sandbox --disable-gpu --hide-scrollbars --window-size="$2" "$3" \
        "file://$folder/$1" 2>"$folder/chromium.log" || { cat "$folder/chromium.log" >&2; exit 1; }
}

screenshot() {
    browse "$1" "$2" "--screenshot=$folder/$1.png"
    echo "$folder/$1.png"
}

draw lan --rp 10.9.9.9 --after 5000 --time utc lan=10.0.0.2@examples/lan.pcap
draw ignored --all --rp 10.9.9.8 --time epoch 10.0.0.2@examples/lan.pcap
draw since --from 2500 --rp 10.9.9.9 10.0.0.2@examples/lan.pcap
draw ipv6 --all --rp 2001:db8::9 fe80::2@examples/ipv6.pcap
draw lost 10.0.0.2@examples/lost.pcap
for name in lan ignored since ipv6 lost; do
    screenshot $name.svg 1020,400
    screenshot $name.html 1200,450
done

# The page after turns of the wheel at 22:13:32, and with a filter.
{
    sed '/^<\/body>$/,$d' "$folder/lan.html"
    cat <<'SCRIPT'
<script>
for (let turn = 0; turn < 6; turn += 1) {
  body.dispatchEvent(new WheelEvent("wheel", {deltaY: -100, clientX: 360, cancelable: true}));
}
find.value = "star prune-pending";
find.dispatchEvent(new Event("input"));
</script>
</body>
</html>
SCRIPT
} >"$folder/zoomed.html"
screenshot zoomed.html 1200,300
browse zoomed.html 1200,300 --dump-dom | grep -q '>5 of 11 rows<' || {
    echo "the filter doesn't leave 5 of 11 rows" >&2
    exit 1
}
