<?php
// The work of a queue by Predis: predis.php PORT. The commands of streams are sent as raw words, since Predis 1.1 has
// no methods for them; lines of clients/steps.txt that stand together and have one name go through a pipeline.
require 'Predis/autoload.php';
require __DIR__ . '/forms.php';

use Predis\Command\RawCommand;

function answered($shape, $reply) {
    if ($reply instanceof Predis\Response\Error) {
        return 'error ' . $reply->getErrorType();
    }
    return shown($shape, $reply);
}

function step($client, $lines) {
    $commands = [];
    foreach ($lines as $line) {
        $words = explode(' ', $line[3]);
        $commands[] = new RawCommand(str_replace('@bytes', implode('', array_map('chr', range(0, 255))), $words));
    }
    if (count($commands) == 1) {
        $replies = [$client->executeCommand($commands[0])];
    } else {
        $replies = $client->pipeline(function ($pipe) use ($commands) {
            array_map([$pipe, 'executeCommand'], $commands);
        });
    }
    say($lines[0][1], implode(' ', array_map('answered', array_column($lines, 2), $replies)));
}

$address = ['scheme' => 'tcp', 'host' => '127.0.0.1', 'port' => (int) $argv[1]];
$clients = ['one' => new Predis\Client($address, ['exceptions' => false]),
            'two' => new Predis\Client($address, ['exceptions' => false])];
$together = [];
foreach (file(__DIR__ . '/steps.txt', FILE_IGNORE_NEW_LINES) as $text) {
    $line = explode('|', $text, 4);
    if ($together && $together[0][1] != $line[1]) {
        step($clients[$together[0][0]], $together);
        $together = [];
    }
    $together[] = $line;
}
step($clients[$together[0][0]], $together);
