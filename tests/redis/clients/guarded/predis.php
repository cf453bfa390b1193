<?php
// A queue by Predis, behind a database, a password and transactions: predis.php PORT. The commands of streams are sent as
// raw words, since Predis 1.1 has no methods for them.
require 'Predis/autoload.php';

use Predis\Command\RawCommand;

$queue = new Predis\Client(['port' => (int) $argv[1], 'database' => 0, 'password' => 'secret']);
$ask = function ($line) use ($queue) {
    return $queue->executeRaw(explode(' ', $line));
};
$together = function ($lines) use ($queue) {
    return $queue->transaction(function ($transaction) use ($lines) {
        foreach ($lines as $line) {
            $transaction->executeCommand(new RawCommand(explode(' ', $line)));
        }
    });
};
$ask('CLIENT SETNAME app');
echo 'name: ', $ask('CLIENT GETNAME'), "\n";
echo 'transaction: ', implode(' ', $together(['XADD t 1-0 f v', 'XLEN t'])), "\n";
$ask('XGROUP CREATE jobs workers 0 MKSTREAM');
$together(array_map(function ($number) { return "XADD jobs * number $number"; }, range(0, 999)));
$done = [];
while ($found = $ask('XREADGROUP GROUP workers one COUNT 100 BLOCK 100 STREAMS jobs >')) {
    $ends = [];
    foreach ($found[0][1] as list($id, $fields)) {
        $done[$fields[1]] = true;
        array_push($ends, "XACK jobs workers $id", "XDEL jobs $id");
    }
    $together($ends);
}
echo 'done: ', count($done), ', left: ', $ask('XLEN jobs'), ', pending: ', $ask('XPENDING jobs workers')[0], "\n";
