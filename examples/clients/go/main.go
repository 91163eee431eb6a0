package main

import (
	"fmt"
	"os"
	"strings"
)

// read returns the lines and the replies of a file of vectors.
func read(path string) (lines, replies []string, err error) {
	text, err := os.ReadFile(path)
	for _, row := range strings.Split(string(text), "\n") {
		if strings.HasPrefix(row, "> ") {
			lines = append(lines, row[2:])
		} else if strings.HasPrefix(row, "< ") {
			replies = append(replies, row[2:])
		}
	}
	return lines, replies, err
}

// check makes the session of a file of vectors and compares each reply.
func check(socket, path string) error {
	lines, wanted, err := read(path)
	if err != nil {
		return err
	}
	client, err := Dial("unix", socket)
	if err != nil {
		return err
	}
	defer client.Close()
	got, err := client.Lines(lines)
	for at := range got {
		if got[at] != wanted[at] {
			return fmt.Errorf("%s: wanted %s, got %s", lines[at], wanted[at], got[at])
		}
	}
	return err
}

func main() {
	if len(os.Args) != 4 || os.Args[1] != "vectors" {
		fmt.Fprintln(os.Stderr, "usage: go run . vectors SOCKET VECTORS")
		os.Exit(2)
	}
	if err := check(os.Args[2], os.Args[3]); err != nil {
		fmt.Fprintln(os.Stderr, err)
		os.Exit(1)
	}
	fmt.Println("all replies: well")
}
