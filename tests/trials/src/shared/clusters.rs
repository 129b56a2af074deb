//! The clusters of the trials.

use cluster_config::Config;
use config_text::{ConfigFault, read_config};
use std::alloc::Global;

// Two masters with half of the slots each.
const TWO_MASTERS: &[u8] = b"{\"tick_ms\":10,\"node_timeout\":20,\"nodes\":[\
{\"id\":\"0000000000000000000000000000000000000000\",\"host\":\"127.0.0.1\",\"port\":7000,\"slots\":[[0,8191]]},\
{\"id\":\"0000000000000000000000000000000000000001\",\"host\":\"127.0.0.1\",\"port\":7001,\"slots\":[[8192,16383]]}],\
\"voters\":[\"0000000000000000000000000000000000000000\"]}";

// A master and its replica, and streams of which the last 64 bytes are kept.
const ONE_REPLICA: &[u8] = b"{\"tick_ms\":10,\"node_timeout\":20,\"backlog\":64,\"nodes\":[\
{\"id\":\"0000000000000000000000000000000000000000\",\"host\":\"127.0.0.1\",\"port\":7000,\"slots\":[[0,16383]]},\
{\"id\":\"0000000000000000000000000000000000000001\",\"host\":\"127.0.0.1\",\"port\":7001,\"replica_of\":\"0000000000000000000000000000000000000000\"}],\
\"voters\":[\"0000000000000000000000000000000000000000\"]}";

// Three masters with a third of the slots each.
const THREE_MASTERS: &[u8] = b"{\"tick_ms\":10,\"node_timeout\":20,\"nodes\":[\
{\"id\":\"0000000000000000000000000000000000000000\",\"host\":\"127.0.0.1\",\"port\":7000,\"slots\":[[0,5460]]},\
{\"id\":\"0000000000000000000000000000000000000001\",\"host\":\"127.0.0.1\",\"port\":7001,\"slots\":[[5461,10922]]},\
{\"id\":\"0000000000000000000000000000000000000002\",\"host\":\"127.0.0.1\",\"port\":7002,\"slots\":[[10923,16383]]}],\
\"voters\":[\"0000000000000000000000000000000000000000\"]}";

// The same with a replica of each, and streams of which the last 64 bytes are kept.
const WITH_REPLICAS: &[u8] = b"{\"tick_ms\":10,\"node_timeout\":20,\"backlog\":64,\"nodes\":[\
{\"id\":\"0000000000000000000000000000000000000000\",\"host\":\"127.0.0.1\",\"port\":7000,\"slots\":[[0,5460]]},\
{\"id\":\"0000000000000000000000000000000000000001\",\"host\":\"127.0.0.1\",\"port\":7001,\"slots\":[[5461,10922]]},\
{\"id\":\"0000000000000000000000000000000000000002\",\"host\":\"127.0.0.1\",\"port\":7002,\"slots\":[[10923,16383]]},\
{\"id\":\"0000000000000000000000000000000000000003\",\"host\":\"127.0.0.1\",\"port\":7003,\"replica_of\":\"0000000000000000000000000000000000000000\"},\
{\"id\":\"0000000000000000000000000000000000000004\",\"host\":\"127.0.0.1\",\"port\":7004,\"replica_of\":\"0000000000000000000000000000000000000001\"},\
{\"id\":\"0000000000000000000000000000000000000005\",\"host\":\"127.0.0.1\",\"port\":7005,\"replica_of\":\"0000000000000000000000000000000000000002\"}],\
\"voters\":[\"0000000000000000000000000000000000000000\"]}";

// The same where much of a stream is kept.
const WITH_LONG_STREAMS: &[u8] =
    b"{\"tick_ms\":10,\"node_timeout\":20,\"backlog\":131072,\"nodes\":[\
{\"id\":\"0000000000000000000000000000000000000000\",\"host\":\"127.0.0.1\",\"port\":7000,\"slots\":[[0,5460]]},\
{\"id\":\"0000000000000000000000000000000000000001\",\"host\":\"127.0.0.1\",\"port\":7001,\"slots\":[[5461,10922]]},\
{\"id\":\"0000000000000000000000000000000000000002\",\"host\":\"127.0.0.1\",\"port\":7002,\"slots\":[[10923,16383]]},\
{\"id\":\"0000000000000000000000000000000000000003\",\"host\":\"127.0.0.1\",\"port\":7003,\"replica_of\":\"0000000000000000000000000000000000000000\"},\
{\"id\":\"0000000000000000000000000000000000000004\",\"host\":\"127.0.0.1\",\"port\":7004,\"replica_of\":\"0000000000000000000000000000000000000001\"},\
{\"id\":\"0000000000000000000000000000000000000005\",\"host\":\"127.0.0.1\",\"port\":7005,\"replica_of\":\"0000000000000000000000000000000000000002\"}],\
\"voters\":[\"0000000000000000000000000000000000000000\"]}";

// Two masters with half of the slots each, and two replicas of the first one, of which the second one has no vote. A node that is silent for a
// tick is suspected.
const WITH_ELECTIONS: &[u8] = b"{\"tick_ms\":10,\"node_timeout\":1,\"backlog\":64,\"nodes\":[\
{\"id\":\"0000000000000000000000000000000000000000\",\"host\":\"127.0.0.1\",\"port\":7000,\"slots\":[[0,8191]]},\
{\"id\":\"0000000000000000000000000000000000000001\",\"host\":\"127.0.0.1\",\"port\":7001,\"slots\":[[8192,16383]]},\
{\"id\":\"0000000000000000000000000000000000000002\",\"host\":\"127.0.0.1\",\"port\":7002,\"replica_of\":\"0000000000000000000000000000000000000000\"},\
{\"id\":\"0000000000000000000000000000000000000003\",\"host\":\"127.0.0.1\",\"port\":7003,\"replica_of\":\"0000000000000000000000000000000000000000\"}],\
\"voters\":[\"0000000000000000000000000000000000000000\",\"0000000000000000000000000000000000000001\",\"0000000000000000000000000000000000000002\"]}";

/// Two masters with half of the slots each.
pub fn two_masters(alloc: Global) -> Result<Config, ConfigFault> {
    config_of(alloc, TWO_MASTERS, 2)
}

/// A master, which is node 0, and its replica. A node keeps the last 64 bytes of its stream.
pub fn one_replica(alloc: Global) -> Result<Config, ConfigFault> {
    config_of(alloc, ONE_REPLICA, 2)
}

/// Three masters with a third of the slots each.
pub fn three_masters(alloc: Global) -> Result<Config, ConfigFault> {
    config_of(alloc, THREE_MASTERS, 3)
}

// The cluster that the text describes, which has so many nodes.
fn config_of(alloc: Global, text: &[u8], nodes: usize) -> Result<Config, ConfigFault> {
    let config = read_config(alloc, text)?;
    if config.nodes().len() != nodes {
        return Err(ConfigFault::Syntax);
    }
    Ok(config)
}

/// The same with a replica of each. Node 5 is the replica of node 2. A node keeps the last 64 bytes of its stream.
pub fn with_replicas(alloc: Global) -> Result<Config, ConfigFault> {
    read_config(alloc, WITH_REPLICAS)
}

/// The same where a node keeps the last 131,072 bytes of its stream.
pub fn with_long_streams(alloc: Global) -> Result<Config, ConfigFault> {
    read_config(alloc, WITH_LONG_STREAMS)
}

/// Two masters with half of the slots each. Nodes 2 and 3 are replicas of node 0, and all but node 3 vote. A node is suspected once it is silent
/// for a tick.
pub fn with_elections(alloc: Global) -> Result<Config, ConfigFault> {
    read_config(alloc, WITH_ELECTIONS)
}
