# frozen_string_literal: true

require 'redis'

# Asks for neither CLUSTER NODES nor COMMAND: nodes and slots come from CLUSTER SLOTS, places of keys from a table.
class SlotsCluster < Redis::Cluster
  READS = %w[get strlen type mget exists hget hmget hexists hstrlen hlen hkeys hvals hgetall].freeze
  WRITES = %w[set setnx getset append getdel incr decr incrby del mset hset hsetnx hincrby hdel].freeze
  COMMANDS = READS.to_h { |name| [name, { flags: ['readonly'], first: 1 }] }
                  .merge(WRITES.to_h { |name| [name, { flags: ['write'], first: 1 }] })
                  .freeze

  private

  def fetch_cluster_info!(option)
    start = Node.new(option.per_node_key)
    slots = SlotLoader.load(start)
    option.update_node(slots.keys.map { |key| NodeKey.optionize(key) })
    [Node.new(option.per_node_key), Slot.new(slots)]
  ensure
    start&.each(&:disconnect)
  end

  def fetch_command_details(_nodes)
    Command.new(COMMANDS)
  end
end

# A client of such a cluster: SlotsRedis.new(cluster: ['redis://127.0.0.1:7000'])
class SlotsRedis < Redis
  def initialize(options)
    super(options.except(:cluster))
    @cluster_mode = true
    @original_client = @client = SlotsCluster.new(options)
  end
end
