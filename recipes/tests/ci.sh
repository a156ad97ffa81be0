#!/bin/sh
# The pages for a CI and for PHPUnit: their words are run, on the installed recipes.
. "$(dirname "$0")/common.sh"
page=$root/recipes/ci.md
VP_PROGRAM=$vp ./install "$room/prefix" >/dev/null
cd "$room"
mkdir streams
cp "$root"/examples/*.bin "$root"/examples/*.zpl streams
printf '^XA^PW200^LL100^FO9,9^A0N,24^FDa^FS^FVb^FS^XZ' >streams/more.zpl
unset VP
export PATH="$room/prefix/bin:$PATH"
is 0 'accept' vp-golden accept streams expected
is 0 'known lines' vp-lint --known lint.txt --write-known streams/*

# jobs: the words of both jobs, a line each
sed -n '/^```yaml$/,/^```$/{s/^ *- run: \(vp-.*\)/\1/p;s/^ *- \(vp-.*\)/\1/p}' "$page" >words
[ "$(wc -l <words)" -eq 4 ] || fail 'the jobs of ci.md have other words'
while IFS= read -r line; do is 0 "$line" sh -euc "$line"; done <words
sed -i 's/2\.58/9.99/' streams/receipt.bin
sed -i 's/\^FVb/^BZ/' streams/more.zpl
while IFS= read -r line; do is 1 "$line, of a change" sh -euc "$line"; done <words
# what the jobs keep
for kept in golden-report/index.html golden.xml; do
    [ -e "$kept" ] || fail "there is no $kept"
    grep -q "${kept%/*}" "$page" || fail "ci.md keeps no $kept"
done
grep -q 'failures="2"' golden.xml || fail 'not a failure for each stream that differs'
if python3 -c 'import yaml' 2>/dev/null; then
    sed -n '/^```yaml$/,/^```$/p' "$page" | sed 's/^```yaml$/---/; /^```$/d' >jobs.yml
    python3 -c 'import yaml; github, gitlab = yaml.safe_load_all(open("jobs.yml"))
assert [it.get("uses", "run") for it in github["jobs"]["golden"]["steps"]][::3] == [
    "actions/checkout@v4", "actions/upload-artifact@v4"]
assert gitlab["golden"]["artifacts"]["reports"]["junit"] == "golden.xml"' || fail 'a job of ci.md'
fi
# the container file: a Debian and four lines, of the package that is made
sed -n '/^```dockerfile$/,/^```$/p' "$page" | sed '/^```/d' >Dockerfile
[ "$(wc -l <Dockerfile)" -eq 4 ] && grep -q '^FROM debian:[0-9]*-slim$' Dockerfile || fail 'the container file'
VP_PROGRAM=$vp "$root/tools/packages/deb.py" . >/dev/null
package=$(sed -n 's/^COPY \([^ ]*\) .*/\1/p' Dockerfile)
# shellcheck disable=SC2086
[ "$(ls $package | wc -l)" -eq 1 ] || fail "the container file copies $package"
echo 'the page for a CI: ok'

if needs php phpunit; then
    mkdir shop
    sed -n '/^```php$/,/^```$/p' "$root/recipes/phpunit.md" | sed '/^```/d' >shop/Prints.php
    cat >shop/TillTest.php <<'END'
<?php
require_once __DIR__ . '/Prints.php';
final class TillTest extends PHPUnit\Framework\TestCase
{
    use Prints;

    public function testATotal(): void
    {
        $this->assertPrints('total.bin', "TOTAL 8.08\n");
    }
}
END
    cd shop
    is 1 'a test with nothing accepted' phpunit --do-not-cache-result TillTest.php
    says 'total.bin: no image was accepted yet'
    is 0 'a test that accepts' env ACCEPT=1 phpunit --do-not-cache-result TillTest.php
    is 0 'a test of what was accepted' phpunit --do-not-cache-result TillTest.php
    sed -i 's/8.08/9.99/' TillTest.php
    is 1 'a test of a changed total' phpunit --do-not-cache-result TillTest.php
    says 'total.bin: [0-9]* dots differ, in rows'
    [ -e golden-report/total.bin/index.html ] || fail 'no page of what differs'
    echo 'golden images in PHPUnit: ok'
fi
