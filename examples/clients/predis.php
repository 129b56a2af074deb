<?php
// usage: php predis.php HOST:PORT ROUNDS

require 'Predis/Autoloader.php';
Predis\Autoloader::register();

[, $address, $rounds] = $argv;
$cluster = new Predis\Client(["tcp://$address"], ['cluster' => 'redis']);
$repetitions = 0;

function served(callable $command): mixed
{
    global $repetitions;
    for (;; $repetitions++, usleep(1000)) {
        try {
            return $command();
        } catch (Predis\Response\ServerException $error) {
            if ($error->getErrorType() !== 'TRYAGAIN') {
                throw $error;
            }
        }
    }
}

for ($round = 1; $round <= $rounds; $round++) {
    for ($user = 0; $user < 8; $user++) {
        served(fn () => $cluster->incr("{predis:$user}:counter"));
        served(fn () => $cluster->hset("{predis:$user}:session", 'page', "/$round"));
        served(fn () => $cluster->hincrby("{predis:$user}:session", 'visits', 1));
    }
}
for ($user = 0; $user < 8; $user++) {
    $counter = served(fn () => $cluster->get("{predis:$user}:counter"));
    $session = served(fn () => $cluster->hgetall("{predis:$user}:session"));
    echo "predis:$user counter $counter visits $session[visits] page $session[page]\n";
}
echo "repetitions $repetitions\n";
