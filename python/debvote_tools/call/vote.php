<?php
// Keeps each ballot of the page, sealed to the secretary, beside it until the secretary asks. INSIDE has the protocol.
// Each vote has the same code, as hosts keep it compiled. Nobody can vote by reading what is below it, or learns who may.
const LONGEST = 4000, PER_LINK = 20, AHEAD = 600, FULL = 30_000_000;
const BALLOT = '/\A(?:box=)?([0-9a-f]{16}) ([0-9a-f]{64}) ([0-9a-f]{32})\n([\w-]{200,3800})\n\z/';
// how the file begins, which no browser shows, and a record ends
const HEAD = "<?php exit; ?>\n", END = "\n-- \n\n";
const ISO = 'Y-m-d\TH:i:s\Z', ARRIVAL = 'D, d M Y H:i:s';

error_reporting(0);
umask(0077);
header('Content-Type: text/plain');
header('X-Content-Type-Options: nosniff');
header('Cache-Control: no-store');
header('Allow: POST');
if ($_SERVER['REQUEST_METHOD'] !== 'POST') answer(405, 'bad: only POST');
if (!is_callable('fsync')) answer(503, 'lost: fsync needs PHP 8.1');
$body = file_get_contents('php://input', length: LONGEST + 1);
if (strlen($body) > LONGEST) answer(413, 'bad: too long');
$list = file_get_contents(__FILE__, offset: __COMPILER_HALT_OFFSET__ + 1);
[$mark, $word, $page] = explode(' ', strtok($list, "\n"));
if (preg_match('/\A(?:box=)?ask ([0-9a-f]{64})\n\z/', $body, $found)) {
    if (hash('sha256', $found[1]) !== $word) answer(403, 'unknown: another word');
    [, $whole, $time] = locked($word);
    answer(200, "box 2 $mark " . hash('sha256', $list) . gmdate(' ' . ISO, $time), substr($whole, strlen(HEAD)));
}
if (!preg_match(BALLOT, $body, $found)) answer(400, 'bad: no ballot');
[, $shown, $proof, $id, $sealed] = $found;
if ($shown !== $page) answer(409, 'old: another page');
$proof = hash('sha256', $proof);
if (!str_contains($list, "\n$proof\n")) answer(403, 'unknown: no such link');
$rest = " +0000\nX-Proof: $proof\nFrom: box@page.invalid\nSubject: [$mark]\nMessage-ID: <$id@page.invalid>\n\n$sealed" . END;
answer(200, 'received ' . gmdate(ISO, kept($proof, $id, $rest, ...locked($word))));

function answer(int $status, string $line, string $records = ''): never
{
    http_response_code($status);
    header('Content-Length: ' . strlen($line) + 1 + strlen($records));
    echo $line, "\n", $records;
    exit;
}

// The file, locked until it is closed, its whole records, and the time. Of what was cut off nobody was told.
function locked(string $word): array
{
    $file = fopen(__DIR__ . '/box-' . substr($word, 0, 32) . '.php', 'c+b');
    if (!$file || !flock($file, LOCK_EX)) answer(503, 'lost: no file to lock');
    if (fstat($file)['size'] < strlen(HEAD)) {
        put($file, 0, HEAD);
        // its name, too
        if ($folder = fopen(__DIR__, 'r')) fsync($folder);
    }
    $data = stream_get_contents($file, offset: 0);
    // what was not read is never written over
    if (strlen($data) !== fstat($file)['size'] || !str_starts_with($data, HEAD)) answer(503, 'lost: unreadable, or no box file');
    $end = strrpos($data, END);
    return [$file, $end ? substr($data, 0, $end + strlen(END)) : HEAD, time()];
}

// Keeps a ballot as a letter, and returns its time. What is sent again is the same record.
function kept(string $proof, string $id, string $rest, $file, string $whole, int $time): int
{
    if (str_contains($whole, "<$id@page.invalid>")) {
        if (!$place = strpos($whole, $rest)) answer(400, 'bad: number of another ballot');
        if (!fsync($file)) answer(500, 'unsure: disk broken');
        return strtotime(substr($whole, $place - 25, 25) . ' UTC');
    }
    if (preg_match_all("/; (.{25}) \+0000\nX-Proof: $proof\n/", $whole, $times) >= PER_LINK) answer(429, 'many: no more by this link');
    // the last ballot counts, so each is later than all before
    foreach ($times[1] as $one) $time = max($time, strtotime("$one UTC") + 1);
    $record = 'From box@page.invalid ' . gmdate('D M d H:i:s Y', $time) . "\nReceived: by box; " . gmdate(ARRIVAL, $time) . $rest;
    if ($time > time() + AHEAD || strlen($whole) + strlen($record) > FULL) answer(503, 'lost: full, or the clock was put back');
    put($file, strlen($whole), $record);
    return $time;
}

// Writes this to the disk, or nothing of it: who is told that it failed votes otherwise.
function put($file, int $place, string $data): void
{
    if (ftruncate($file, $place) && !fseek($file, $place) && fwrite($file, $data) === strlen($data) && fsync($file)) return;
    if (ftruncate($file, $place) && fsync($file)) answer(503, 'lost: disk full or broken');
    answer(500, 'unsure: disk broken');
}
__halt_compiler();
