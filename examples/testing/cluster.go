// Package rclustertest serves a cluster at free ports of 127.0.0.1 while a test runs.
package rclustertest

import (
	"bufio"
	"fmt"
	"io"
	"net"
	"os"
	"os/exec"
	"strconv"
	"strings"
	"testing"
	"time"
)

// patience is how long the end of a node may take.
const patience = 30 * time.Second

// Cluster is the program that serves, and the addresses of its nodes, each as "127.0.0.1:7000".
type Cluster struct {
	Addresses []string
	program   *exec.Cmd
	orders    io.Writer
	output    *bufio.Reader
}

// Start serves so many masters with so many replicas each, until the test ends. The options are those of `rcluster serve`.
func Start(t *testing.T, masters, replicas int, options ...string) *Cluster {
	t.Helper()
	words := []string{"serve", "--masters", strconv.Itoa(masters), "--replicas", strconv.Itoa(replicas), "--port", "0", "--orders"}
	cluster, fault := serve(append(words, options...), masters*(1+replicas))
	if fault != "" {
		t.Fatalf("the cluster isn't served: %s", fault)
	}
	t.Cleanup(cluster.end)
	return cluster
}

// serve waits for the line of each node, as `node 0 127.0.0.1:7000`, and returns another line in place of one as the fault.
func serve(words []string, nodes int) (*Cluster, string) {
	path := os.Getenv("RCLUSTER")
	if path == "" {
		path = "../../rcluster"
	}
	program := exec.Command(path, words...)
	program.Stderr = os.Stderr
	orders, err := program.StdinPipe()
	if err != nil {
		return nil, err.Error()
	}
	output, err := program.StdoutPipe()
	if err != nil {
		return nil, err.Error()
	}
	if err := program.Start(); err != nil {
		return nil, err.Error()
	}
	cluster := &Cluster{program: program, orders: orders, output: bufio.NewReader(output)}
	for len(cluster.Addresses) < nodes {
		line := cluster.line()
		if !strings.HasPrefix(line, "node ") {
			cluster.end()
			return nil, line
		}
		cluster.Addresses = append(cluster.Addresses, strings.Fields(line)[2])
	}
	return cluster, ""
}

// Stop stops the node of that number, as if it were gone, and waits until nobody can connect to it. It isn't started again.
func (cluster *Cluster) Stop(t *testing.T, node int) {
	t.Helper()
	fmt.Fprintf(cluster.orders, "stop %d\n", node)
	for last := time.Now().Add(patience); ; time.Sleep(20 * time.Millisecond) {
		client, err := net.DialTimeout("tcp", cluster.Addresses[node], patience)
		if err != nil {
			return
		}
		client.Close()
		if time.Now().After(last) {
			t.Fatalf("node %d isn't stopped", node)
		}
	}
}

// Verdict waits until the ticks of `--ticks` are over, and returns what the audit says: "audit ok" with the number of steps, or a fault.
func (cluster *Cluster) Verdict() string {
	return cluster.line()
}

func (cluster *Cluster) line() string {
	line, err := cluster.output.ReadString('\n')
	if err != nil {
		return err.Error()
	}
	return strings.TrimSuffix(line, "\n")
}

func (cluster *Cluster) end() {
	cluster.program.Process.Kill()
	cluster.program.Wait()
}
