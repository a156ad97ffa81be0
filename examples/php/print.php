<?php
// Prints a receipt with the library, by PHP's FFI: php print.php STREAM [FONT_A] >images.pbm
// VP_LIBRARY names the library where it isn't libvp.so.1, and VP_HEADER the header where it isn't /usr/include/vp.h.
$header = file_get_contents(getenv('VP_HEADER') ?: '/usr/include/vp.h');
// (FFI reads declarations, and no lines for the preprocessor)
$vp = FFI::cdef(preg_replace(['/^#.*$/m', '/^extern "C" \{$|^\}$/m'], '', $header), getenv('VP_LIBRARY') ?: 'libvp.so.1');

function bytes(string $text): ?FFI\CData
{
    if ($text === '') {
        return null;
    }
    $made = FFI::new('uint8_t[' . strlen($text) . ']');
    FFI::memcpy($made, $text, strlen($text));
    return $made;
}

$stream = file_get_contents($argv[1]);
$font = isset($argv[2]) ? file_get_contents($argv[2]) : '';
$printer = $vp->new('vp');
$answer = $vp->vp_new(0, bytes($font), strlen($font), null, 0, FFI::addr($printer));
$line = FFI::new('char[96]');
if ($answer !== 0) {
    $vp->vp_answer_text($answer, $line, 96);
    fwrite(STDERR, FFI::string($line) . "\n");
    exit(3);
}

$done = $vp->new('vp_progress');
$room = FFI::new('uint8_t[4096]');
$at = 0;
do {
    $rest = substr($stream, $at);
    $vp->vp_step(FFI::addr($printer), bytes($rest), strlen($rest), $room, 4096, FFI::addr($done));
    $at += $done->taken;
    echo FFI::string($room, $done->put);
} while ($done->state === 1);

if ($done->state === 0) {
    $vp->vp_finish(FFI::addr($printer), FFI::addr($done->fault));
}
$vp->vp_free(FFI::addr($printer));
if ($done->fault->number !== 0) {
    $vp->vp_fault_line(FFI::addr($done->fault), $at, $line, 96);
    fwrite(STDERR, FFI::string($line) . "\n");
    exit(1);
}
