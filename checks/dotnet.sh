#!/bin/sh
# Makes the NuGet package and runs its tests under Mono, where that is installed (Debian's mono-mcs and mono-runtime; they
# aren't among the gate's packages, since with what they need they take 100 MB).
set -eu
cd "$(dirname "$0")/.."
room=$(mktemp -d)
trap 'rm -rf "$room"' EXIT
for tool in mcs mono; do
    command -v "$tool" >/dev/null || {
        echo "checks/dotnet: not run: no $tool"
        [ -z "${VP_NOT_RUN:-}" ] || echo ./checks/dotnet.sh >>"$VP_NOT_RUN"
        exit 0
    }
done
fail() {
    echo "checks/dotnet: $1" >&2
    exit 1
}
package=$(dotnet/pack.py "$room")
mkdir "$room/package" "$room/streams" "$room/run"
python3 -m zipfile -e "$package" "$room/package"
for system in linux-x64 linux-musl-x64; do
    [ -n "$(ls "$room/package/runtimes/$system/native")" ] || fail "no library for $system"
done
python3 -c 'import sys, xml.dom.minidom as it; [it.parse(name) for name in sys.argv[1:]]' \
    "$room/package/VirtualReceiptPrinter.nuspec" "$room/package/[Content_Types].xml" "$room/package/_rels/.rels"
python3 checks/streams.py "$room/streams" "${COUNT:-30}"
cp "$room/package/lib/net461/VirtualReceiptPrinter.dll" "$room/package/runtimes/linux-x64/native/libvp.so" "$room/run"
mcs -langversion:7.2 -r:"$room/run/VirtualReceiptPrinter.dll" -out:"$room/run/Tests.exe" dotnet/tests/Tests.cs
(cd "$room/run" && LD_LIBRARY_PATH=$room/run mono Tests.exe "$OLDPWD/dist/vp" "$OLDPWD/examples" "$room/streams" "$room/label")
python3 - "$room/label.png" "$room/label.pbm" <<'END'
import struct, sys, zlib
png, pbm = (open(it, 'rb').read() for it in sys.argv[1:])
assert png.startswith(b'\x89PNG\r\n\x1a\n')
at, chunks = 8, {}
while at < len(png):
    size, name = struct.unpack_from('>I4s', png, at)
    content = png[at + 8:at + 8 + size]
    assert zlib.crc32(name + content) == struct.unpack_from('>I', png, at + 8 + size)[0], name
    chunks[name], at = content, at + 12 + size
assert chunks[b'IHDR'] == struct.pack('>IIBBBBB', 16, 4, 1, 0, 0, 0, 0)
assert chunks[b'pHYs'] == struct.pack('>IIB', 8000, 8000, 1)
rows = zlib.decompress(chunks[b'IDAT'])
assert bytes(~it & 255 for row in range(4) for it in rows[3 * row + 1:3 * row + 3]) == pbm.split(b'\n', 2)[2]
END
echo 'its PNG: ok'
