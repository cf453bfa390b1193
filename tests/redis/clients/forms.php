<?php
// The normal form in which each client tells its answers, as in forms.py, and the steps of clients/steps.txt.

function text($value) {
    $data = (string) $value;
    return preg_match('/\A[A-Za-z0-9-]+\z/', $data) ? $data : 'hex:' . bin2hex($data);
}

function texts($values) {
    return implode(' ', array_map('text', $values)) ?: 'nothing';
}

function entry($id, $fields) {
    if (!$fields) {
        return text($id) . 'none';
    }
    $shown = [];
    foreach ($fields as $name => $value) {
        $shown[] = text($name) . '=' . text($value);
    }
    return text($id) . '{' . implode(' ', $shown) . '}';
}

// Entries as an array of ids with their fields, each as names with their values.
function entries($found) {
    return implode(' ', array_map('entry', array_keys($found), $found)) ?: 'nothing';
}

// Entries as the server sends them, as such an array.
function named($found) {
    $made = [];
    foreach ($found as list($id, $words)) {
        $made[$id] = null;
        for ($place = 0; $words !== null && $place + 1 < count($words); $place += 2) {
            $made[$id][$words[$place]] = $words[$place + 1];
        }
    }
    return $made;
}

function say($step, $answer) {
    echo "$step: $answer\n";
}

function row($row) {
    return text($row[0]) . '/' . text($row[1]) . '/' . $row[3];
}

function pending($found) {
    $consumers = array_map(function ($pair) { return text($pair[0]) . '=' . text($pair[1]); }, $found[3]);
    return $found[0] . ' ' . text($found[1]) . ' ' . text($found[2]) . ' ' . implode(' ', $consumers);
}

// A reply as the server sends it, in the form of its shape.
function shown($shape, $reply) {
    switch ($shape) {
        case 'value': return text($reply);
        case 'values': return texts($reply);
        case 'entries': return entries(named($reply));
        case 'rows': return implode(' ', array_map('row', $reply));
        case 'streams': return $reply ? entries(named($reply[0][1])) : 'nothing';
        case 'pending': return pending($reply);
        case 'scan': return text($reply[0]) . ' ' . entries(named($reply[1]));
    }
}
