<?php
// What Symfony Messenger does when it starts, sends a message and acknowledges one: symfony_messenger.php PORT. Its
// workers ask for a sorted set of delayed messages, which this server doesn't have.
require 'Symfony/Component/Messenger/Bridge/Redis/autoload.php';

use Symfony\Component\Messenger\Bridge\Redis\Transport\Connection;

$port = (int) $argv[1];
$transport = Connection::fromDsn("redis://127.0.0.1:$port/jobs/workers/one", ['delete_after_ack' => true]);
$transport->setup();
$transport->add('{"mail": "anna"}', ['type' => 'mail']);
$transport->setup();
$transport->add('{"mail": "bert"}', ['type' => 'mail']);
$queue = new Redis();
$queue->connect('127.0.0.1', $port);
echo 'sent: ', $queue->xLen('jobs'), "\n";
$found = $queue->xReadGroup('workers', 'one', ['jobs' => '>'], 1);
foreach ($found['jobs'] as $id => $fields) {
    echo 'message: ', $fields['message'], "\n";
    $transport->ack($id);
}
$group = $queue->xInfo('GROUPS', 'jobs')[0];
echo "group: {$group['name']}, {$group['consumers']}, {$group['pending']}\n";
echo 'left: ', $queue->xLen('jobs'), "\n";
