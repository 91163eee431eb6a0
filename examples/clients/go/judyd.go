// A client of judyd for Go, with nothing but the standard library: lines and replies over a Unix socket or TCP.
package main

import (
	"bufio"
	"errors"
	"fmt"
	"net"
	"strings"
)

const replyLimit = 4096 // bytes of a reply with its line feed

// Refused is a reply that refuses its line: FULL, or ERR and a reason. Nothing has changed in any array.
type Refused struct{ Reply string }

func (refused Refused) Error() string { return refused.Reply }

// IsRefusal says whether a reply refuses its line.
func IsRefusal(reply string) bool {
	return reply == "FULL" || strings.HasPrefix(reply, "ERR ")
}

// Client is a connection. One goroutine may use it at a time.
type Client struct {
	connection net.Conn
	replies    *bufio.Reader
}

// Dial connects: network is "unix" or "tcp".
func Dial(network, address string) (*Client, error) {
	connection, err := net.Dial(network, address)
	if err != nil {
		return nil, err
	}
	return &Client{connection, bufio.NewReaderSize(connection, replyLimit+1)}, nil
}

// Close ends the connection.
func (client *Client) Close() error { return client.connection.Close() }

// Lines sends many lines and returns their replies, refusals too. It reads while it writes, so neither side waits
// for ever. With an error come the replies before it; it is unknown whether the lines without one were run.
func (client *Client) Lines(lines []string) ([]string, error) {
	for _, line := range lines {
		if strings.Contains(line, "\n") {
			return nil, errors.New("a line feed within a line")
		}
	}
	written := make(chan error, 1)
	go func() {
		_, err := client.connection.Write([]byte(strings.Join(lines, "\n") + "\n"))
		written <- err
	}()
	replies := make([]string, 0, len(lines))
	for len(replies) < len(lines) {
		reply, err := client.replies.ReadSlice('\n')
		if err != nil {
			client.Close() // the writing ends too
			<-written
			return replies, fmt.Errorf("after %d replies: %w", len(replies), err)
		}
		replies = append(replies, string(reply[:len(reply)-1]))
	}
	return replies, <-written
}

// Call returns the reply to a line. A refusal is an error.
func (client *Client) Call(line string) (string, error) {
	replies, err := client.Lines([]string{line})
	if err != nil {
		return "", err
	}
	if IsRefusal(replies[0]) {
		return "", Refused{replies[0]}
	}
	return replies[0], nil
}
