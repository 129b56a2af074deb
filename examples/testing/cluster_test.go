package rclustertest

import (
	"bufio"
	"fmt"
	"net"
	"strings"
	"testing"
	"time"
)

func TestMoved(t *testing.T) {
	cluster := Start(t, 3, 0)
	expect(t, ask(t, cluster.Addresses[0], "GET foo"), "-MOVED 12182 "+cluster.Addresses[2])
}

func TestFailover(t *testing.T) {
	cluster := Start(t, 3, 1, "--ticks", "100")
	expect(t, ask(t, cluster.Addresses[2], "SET foo bar"), "+OK")
	cluster.Stop(t, 2)
	moved := "-MOVED 12182 " + cluster.Addresses[5]
	for last := time.Now().Add(30 * time.Second); ask(t, cluster.Addresses[0], "GET foo") != moved; {
		if time.Now().After(last) {
			t.Fatal("no replica took the place of node 2")
		}
		time.Sleep(20 * time.Millisecond)
	}
	expect(t, ask(t, cluster.Addresses[5], "EXISTS foo"), ":1")
	if verdict := cluster.Verdict(); !strings.HasPrefix(verdict, "audit ok") {
		t.Fatal(verdict)
	}
}

func expect(t *testing.T, got, wanted string) {
	t.Helper()
	if got != wanted {
		t.Fatalf("%q came in place of %q", got, wanted)
	}
}

// ask returns the first line of the reply. Put your client in its place.
func ask(t *testing.T, address, command string) string {
	t.Helper()
	client, err := net.DialTimeout("tcp", address, 30*time.Second)
	if err != nil {
		t.Fatal(err)
	}
	defer client.Close()
	client.SetDeadline(time.Now().Add(30 * time.Second))
	words := strings.Split(command, " ")
	fmt.Fprintf(client, "*%d\r\n", len(words))
	for _, word := range words {
		fmt.Fprintf(client, "$%d\r\n%s\r\n", len(word), word)
	}
	line, err := bufio.NewReader(client).ReadString('\n')
	if err != nil {
		t.Fatal(err)
	}
	return strings.TrimSuffix(line, "\r\n")
}
