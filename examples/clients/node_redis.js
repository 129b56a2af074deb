'use strict';

// usage: NODE_PATH=/usr/share/nodejs node node_redis.js HOST:PORT ROUNDS

const { setTimeout: pause } = require('node:timers/promises');
const { createCluster } = require('./node_redis_adapter');

let repetitions = 0;

async function served(command) {
  for (;; repetitions++, await pause(1)) {
    try {
      return await command();
    } catch (error) {
      if (!error.message.startsWith('TRYAGAIN')) throw error;
    }
  }
}

async function main(address, rounds) {
  const cluster = createCluster({ rootNodes: [{ url: `redis://${address}` }] });
  cluster.on('error', console.error);
  await cluster.connect();
  for (let round = 1; round <= rounds; round++) {
    for (let user = 0; user < 8; user++) {
      await served(() => cluster.incr(`{node_redis:${user}}:counter`));
      await served(() => cluster.hSet(`{node_redis:${user}}:session`, 'page', `/${round}`));
      await served(() => cluster.hIncrBy(`{node_redis:${user}}:session`, 'visits', 1));
    }
  }
  for (let user = 0; user < 8; user++) {
    const counter = await served(() => cluster.get(`{node_redis:${user}}:counter`));
    const { visits, page } = await served(() => cluster.hGetAll(`{node_redis:${user}}:session`));
    console.log(`node_redis:${user} counter ${counter} visits ${visits} page ${page}`);
  }
  console.log(`repetitions ${repetitions}`);
  await cluster.disconnect();
}

main(process.argv[2], Number(process.argv[3]));
