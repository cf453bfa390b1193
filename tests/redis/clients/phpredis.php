<?php
// The work of a queue by phpredis: phpredis.php PORT. It has no xAutoClaim in version 5, so that is sent as raw words.
// phpredis gives false for a refusal, and getLastError has its text.
require __DIR__ . '/forms.php';

function refused($step, $client, $call) {
    $client->clearLastError();
    $answer = $call();
    say($step, $answer === false ? 'error ' . explode(' ', (string) $client->getLastError())[0] : 'no error');
}

function firstStream($found) {
    return entries($found['jobs'] ?? []);
}

function produceAndRead($one, $two) {
    say('ping', $one->ping() === true ? 'PONG' : 'nothing');
    $ids = [];
    for ($number = 1; $number <= 8; $number++) {
        $ids[] = $one->xAdd('jobs', "$number-0", ['job' => 'mail', 'number' => $number]);
    }
    say('produce', texts($ids));
    say('length', $one->xLen('jobs'));
    say('create', $one->xGroup('CREATE', 'jobs', 'workers', '0') ? 'OK' : 'nothing');
    refused('create again', $one, function () use ($one) { return $one->xGroup('CREATE', 'jobs', 'workers', '0'); });
    say('one reads', firstStream($one->xReadGroup('workers', 'one', ['jobs' => '>'], 3)));
    say('two reads', firstStream($two->xReadGroup('workers', 'two', ['jobs' => '>'], 3)));
    say('acknowledge', $one->xAck('jobs', 'workers', ['1-0', '2-0']));
    say('pending', pending($one->xPending('jobs', 'workers')));
    say('rows', implode(' ', array_map('row', $one->xPending('jobs', 'workers', '-', '+', 10, 'two'))));
}

function claimAndTrim($one, $two) {
    say('claim', entries($one->xClaim('jobs', 'workers', 'one', 0, ['4-0', '8-0'], [])));
    say('claim ids', texts($one->xClaim('jobs', 'workers', 'one', 0, ['5-0'], ['JUSTID'])));
    foreach (['scan' => '0-0', 'scan on' => '5-0'] as $step => $from) {
        say($step, shown('scan', $two->rawCommand('XAUTOCLAIM', 'jobs', 'workers', 'two', 0, $from, 'COUNT', 2)));
    }
    say('delete', $one->xDel('jobs', ['8-0', '9-0']));
    say('trim', $one->xTrim('jobs', 4));
    say('history', firstStream($two->xReadGroup('workers', 'two', ['jobs' => '0'])));
    say('range', entries($one->xRange('jobs', '5-0', '+', 2)));
    say('range back', entries($one->xRevRange('jobs', '+', '-', 1)));
}

function endAll($one, $two) {
    refused('small id', $one, function () use ($one) { return $one->xAdd('jobs', '1-0', ['f' => 'v']); });
    refused('no id', $one, function () use ($one) { return $one->xAdd('jobs', 'odd', ['f' => 'v']); });
    refused('no group', $one, function () use ($one) { return $one->xReadGroup('others', 'one', ['jobs' => '>']); });
    refused('no command', $one, function () use ($one) { return $one->rawCommand('ODD', 'jobs'); });
    say('bytes', text($one->xAdd('bytes', '1-1', ['all' => implode('', array_map('chr', range(0, 255)))])));
    say('bytes back', entries($one->xRange('bytes', '-', '+')));
    $pipe = $one->pipeline();
    $pipe->xAdd('jobs', '20-0', ['f' => 'v']);
    $pipe->xAdd('jobs', '21-0', ['f' => 'v']);
    $pipe->xLen('jobs');
    say('together', texts($pipe->exec()));
    say('two reads on', shown('streams', $two->rawCommand(
        'XREADGROUP', 'GROUP', 'workers', 'two', 'NOACK', 'STREAMS', 'jobs', '>')));
    say('nothing new', firstStream($two->xReadGroup('workers', 'two', ['jobs' => '>'], 1, 10)));
    say('remove consumer', $one->xGroup('DELCONSUMER', 'jobs', 'workers', 'two'));
    say('destroy', (int) $one->xGroup('DESTROY', 'jobs', 'workers'));
    say('drop', $one->del('jobs'));
    say('drop bytes', $one->del('bytes'));
}

list($one, $two) = [new Redis(), new Redis()];
$one->connect('127.0.0.1', (int) $argv[1]);
$two->connect('127.0.0.1', (int) $argv[1]);
produceAndRead($one, $two);
claimAndTrim($one, $two);
endAll($one, $two);
