<?php
// The conformance cases by PHP's parse_str and http_build_query.
//   php conformance/runners/parse_str.php [--differences]
//
// Trees and data are compared in a normal form: a list is the map of 0, 1, 2 .. to its elements, a scalar is its text, and the order of a map's keys doesn't
// count. Nothing at the top counts as no value. No call of PHP rejects an input. What is written has to be the same pieces between `&`s, in any order. Left out is
// what PHP has no form for: a key without a value beside others, shapes, limits, keys with more brackets than the depth limit, bytes that aren't UTF-8, what is
// written without indices, with a null or a boolean, or as a scalar alone, and query mode where that differs from form mode, which PHP has alone: what is written,
// and inputs with escaped brackets.

function normal($value)
{
    if (!is_array($value)) {
        return is_null($value) ? 'null' : json_encode((string) $value);
    }
    $pairs = array_map(fn($key, $part) => json_encode((string) $key) . ':' . normal($part), array_keys($value), $value);
    sort($pairs, SORT_STRING);
    return '{' . implode(',', $pairs) . '}';
}

function holds($value, $test)
{
    return is_array($value) ? array_filter($value, fn($part) => holds($part, $test)) !== [] : $test($value);
}

function pieces($text)
{
    $pieces = explode('&', $text);
    sort($pieces, SORT_STRING);
    return implode('&', $pieces);
}

function deepest($input)
{
    return max(array_map(fn($pair) => substr_count(strtr(explode('=', $pair)[0], ['%5B' => '[', '%5b' => '[']), '['), explode('&', $input)));
}

// What is wanted, or null if PHP has no form for the case.
function wanted($case)
{
    if (array_key_exists('written', $case) && !array_key_exists('shape', $case)) {
        $is_said = is_array($case['data']) && !holds($case['data'], fn($it) => is_null($it) || is_bool($it));
        return $is_said && $case['mode'] === 'form' && $case['array_format'] === 'indexed' ? pieces($case['written']) : null;
    }
    if (!array_key_exists('input', $case) || ($case['shape'] ?? 'any') !== 'any' || isset($case['max_length']) || isset($case['max_pairs'])) {
        return null;
    }
    if (isset($case['tree_encoded']) || ($case['error'] ?? '') === 'not_utf8' || deepest($case['input']) > $case['depth']) {
        return null;
    }
    $value = $case['tree'] ?? $case['data'] ?? null;
    if (($case['mode'] === 'query' && preg_match('/%5[bd]/i', $case['input'])) || (is_array($value) && holds($value, 'is_null'))) {
        return null;
    }
    return isset($case['error']) ? 'an error' : normal($value);
}

function found($case)
{
    if (!array_key_exists('input', $case)) {
        return pieces(http_build_query($case['data'], '', '&', PHP_QUERY_RFC3986));
    }
    @parse_str($case['input'], $parsed);
    return normal($parsed === [] ? null : $parsed);
}

$suite = json_decode(file_get_contents(__DIR__ . '/../cases.json'), true, 512, JSON_BIGINT_AS_STRING);
$counts = array_map(fn() => [0, 0, 0], $suite['features']);
foreach ($suite['cases'] as $case) {
    $want = wanted($case);
    $got = is_null($want) ? null : found($case);
    $counts[$case['feature']][0] += !is_null($want) && $got === $want;
    $counts[$case['feature']][1] += !is_null($want);
    $counts[$case['feature']][2] += is_null($want);
    if (($argv[1] ?? '') === '--differences' && $got !== $want) {
        printf("%s/%s: %s: %s, and not %s\n", $case['feature'], $case['name'], $case['input'] ?? json_encode($case['data']), $got, $want);
    }
}
printf("PHP %s\n%-12s agreed     of  left out\n", PHP_VERSION, 'feature');
foreach ($counts as $feature => [$agreed, $all, $out]) {
    printf("%-12s%7d%7d%10d\n", $feature, $agreed, $all, $out);
}
