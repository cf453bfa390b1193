<?php
// A queue by phpredis, behind a name, a database, a password and transactions: phpredis.php PORT
$queue = new Redis();
$queue->connect('127.0.0.1', (int) $argv[1]);
$queue->auth('secret');
$queue->select(0);
$queue->client('setname', 'app');
echo 'name: ', $queue->client('getname'), "\n";
echo 'transaction: ', implode(' ', $queue->multi()->xAdd('t', '1-0', ['f' => 'v'])->xLen('t')->exec()), "\n";
$queue->xGroup('CREATE', 'jobs', 'workers', '0', true);
$queue->multi();
for ($number = 0; $number < 1000; $number++) {
    $queue->xAdd('jobs', '*', ['number' => $number]);
}
$queue->exec();
$done = [];
while ($found = $queue->xReadGroup('workers', 'one', ['jobs' => '>'], 100, 100)) {
    $queue->multi();
    foreach ($found['jobs'] as $id => $fields) {
        $done[$fields['number']] = true;
        $queue->xAck('jobs', 'workers', [$id]);
        $queue->xDel('jobs', [$id]);
    }
    $queue->exec();
}
$pending = $queue->xPending('jobs', 'workers')[0];
echo 'done: ', count($done), ', left: ', $queue->xLen('jobs'), ", pending: $pending\n";
