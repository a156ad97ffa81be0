#!/bin/sh
# Makes the package for Java and runs its tests, where a JDK and JNA are installed (Debian's default-jdk-headless and
# libjna-java; they aren't among the gate's packages, since with what they need they take 200 MB).
set -eu
cd "$(dirname "$0")/.."
jna=${JNA:-/usr/share/java/jna.jar}
if ! command -v javac >/dev/null || [ ! -e "$jna" ]; then
    echo 'checks/java: not run: no javac, or no JNA'
    [ -z "${VP_NOT_RUN:-}" ] || echo ./checks/java.sh >>"$VP_NOT_RUN"
    exit 0
fi
room=$(mktemp -d)
trap 'rm -rf "$room"' EXIT
package=$(java/pack.py "$room")
mkdir "$room/again" "$room/streams" "$room/tests"
java/pack.py "$room/again" >/dev/null
cmp "$package" "$room/again/${package##*/}"
python3 checks/streams.py "$room/streams" "${COUNT:-30}"
javac -Xlint:all -Werror -cp "$package" -d "$room/tests" java/tests/Tests.java
java -cp "$room/tests:$package:$jna" Tests "$PWD/dist/vp" examples "$room/streams"
