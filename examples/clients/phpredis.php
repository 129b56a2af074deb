<?php
// usage: php phpredis.php HOST:PORT ROUNDS

[, $address, $rounds] = $argv;
$cluster = new RedisCluster(null, [$address]);
$repetitions = 0;

// A command that is answered by an error returns false, as GET does of a key that isn't there: getLastError tells them apart.
function served(callable $command): mixed
{
    global $cluster, $repetitions;
    for (;; $repetitions++, usleep(1000)) {
        $cluster->clearLastError();
        $reply = $command();
        $error = $cluster->getLastError();
        if ($error === null) {
            return $reply;
        }
        if (!str_starts_with($error, 'TRYAGAIN')) {
            throw new RuntimeException($error);
        }
    }
}

for ($round = 1; $round <= $rounds; $round++) {
    for ($user = 0; $user < 8; $user++) {
        served(fn () => $cluster->incr("{phpredis:$user}:counter"));
        served(fn () => $cluster->hSet("{phpredis:$user}:session", 'page', "/$round"));
        served(fn () => $cluster->hIncrBy("{phpredis:$user}:session", 'visits', 1));
    }
}
for ($user = 0; $user < 8; $user++) {
    $counter = served(fn () => $cluster->get("{phpredis:$user}:counter"));
    $session = served(fn () => $cluster->hGetAll("{phpredis:$user}:session"));
    echo "phpredis:$user counter $counter visits $session[visits] page $session[page]\n";
}
echo "repetitions $repetitions\n";
