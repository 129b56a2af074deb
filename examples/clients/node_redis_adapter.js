'use strict';

const { createCluster } = require('redis');
const { default: Client } = require('@redis/client/dist/lib/client');

// node-redis asks for CLUSTER NODES at its start and at each redirection. CLUSTER SLOTS says the same of the masters.
Client.prototype.clusterNodes = async function () {
  const masters = new Map();
  for (const { from, to, master } of await this.clusterSlots()) {
    const { id, ip: host, port } = master;
    if (!masters.has(id)) masters.set(id, { id, host, port, slots: [], replicas: [] });
    masters.get(id).slots.push({ from, to });
  }
  return [...masters.values()];
};

module.exports = { createCluster };
