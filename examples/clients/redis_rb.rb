# frozen_string_literal: true

# usage: ruby redis_rb.rb HOST:PORT ROUNDS

require_relative 'redis_rb_adapter'

address, rounds = ARGV
cluster = SlotsRedis.new(cluster: ["redis://#{address}"])
repetitions = 0

served = lambda do |&command|
  command.call
rescue Redis::CommandError => e
  raise unless e.message.start_with?('TRYAGAIN')

  repetitions += 1
  sleep 0.001
  retry
end

(1..rounds.to_i).each do |round|
  8.times do |user|
    served.call { cluster.incr("{redis_rb:#{user}}:counter") }
    served.call { cluster.hset("{redis_rb:#{user}}:session", 'page', "/#{round}") }
    served.call { cluster.hincrby("{redis_rb:#{user}}:session", 'visits', 1) }
  end
end
8.times do |user|
  counter = served.call { cluster.get("{redis_rb:#{user}}:counter") }
  session = served.call { cluster.hgetall("{redis_rb:#{user}}:session") }
  puts "redis_rb:#{user} counter #{counter} visits #{session['visits']} page #{session['page']}"
end
puts "repetitions #{repetitions}"
