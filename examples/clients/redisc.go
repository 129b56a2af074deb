// usage: go run redisc.go HOST:PORT ROUNDS
package main

import (
	"fmt"
	"log"
	"os"
	"strconv"
	"time"

	"github.com/gomodule/redigo/redis"
	"github.com/mna/redisc"
)

func pool(address string, options ...redis.DialOption) (*redis.Pool, error) {
	dial := func() (redis.Conn, error) { return redis.Dial("tcp", address, options...) }
	return &redis.Pool{MaxIdle: 1, Dial: dial}, nil
}

var cluster = redisc.Cluster{StartupNodes: os.Args[1:2], CreatePool: pool}

// served follows MOVED and ASK, and repeats a command that is answered TRYAGAIN, a millisecond later.
func served(command string, arguments ...interface{}) interface{} {
	connection, err := redisc.RetryConn(cluster.Get(), 1000, time.Millisecond)
	if err != nil {
		log.Fatal(err)
	}
	defer connection.Close()
	reply, err := connection.Do(command, arguments...)
	if err != nil {
		log.Fatal(err)
	}
	return reply
}

func main() {
	rounds, err := strconv.Atoi(os.Args[2])
	if err != nil {
		log.Fatal(err)
	}
	if err := cluster.Refresh(); err != nil {
		log.Fatal(err)
	}
	for round := 1; round <= rounds; round++ {
		for user := 0; user < 8; user++ {
			served("INCR", fmt.Sprintf("{redisc:%d}:counter", user))
			served("HSET", fmt.Sprintf("{redisc:%d}:session", user), "page", fmt.Sprintf("/%d", round))
			served("HINCRBY", fmt.Sprintf("{redisc:%d}:session", user), "visits", 1)
		}
	}
	for user := 0; user < 8; user++ {
		counter := served("GET", fmt.Sprintf("{redisc:%d}:counter", user))
		session, err := redis.StringMap(served("HGETALL", fmt.Sprintf("{redisc:%d}:session", user)), nil)
		if err != nil {
			log.Fatal(err)
		}
		fmt.Printf("redisc:%d counter %s visits %s page %s\n", user, counter, session["visits"], session["page"])
	}
}
