// Makes each line of standard input a call of the client (see answer), and prints what the call returned as JSON:
//
//	go run examples/client-go/*.go PORT [PATIENCE [HOST]]
package main

import (
	"bufio"
	"encoding/json"
	"errors"
	"fmt"
	"net"
	"os"
	"strconv"
	"strings"
	"time"
)

// taken is how many words each call takes, of which the last is the rest of the line.
var taken = map[string]int{
	"subscribe": 2, "unsubscribe": 1, "publish": 1, "list": 0, "send": 1, "fetch": 1, "letters": 1, "dump": 0, "tail": 2, "quit": 0, "kept": 0, "lines": 1,
}

// answer makes the call that the line names, and returns what is printed of it.
func answer(client *Client, line string) (any, error) {
	call, rest, hasRest := strings.Cut(line, " ")
	first, second, hasSecond := strings.Cut(rest, " ")
	count, isCall := taken[call]
	if !isCall {
		return nil, fmt.Errorf("%w: there is no call %s", ErrWrong, call)
	}
	if hasRest != (count > 0) || (count == 2 && !hasSecond) {
		words := []string{"no words", "the rest of the line as its word", "a word and the rest of the line"}[count]
		return nil, fmt.Errorf("%w: %s takes %s", ErrWrong, call, words)
	}
	number := func(word string) int {
		if number, err := strconv.Atoi(word); err == nil {
			return number
		}
		return -1 // which the server refuses
	}
	numbers := func(words string) (all []int) {
		for _, word := range strings.Split(words, " ") {
			all = append(all, number(word))
		}
		return all
	}
	printed := []any{}
	switch call {
	case "subscribe":
		return said(client.Subscribe(first, second))
	case "unsubscribe":
		return said(client.Unsubscribe(rest))
	case "publish":
		return said(client.Publish(rest))
	case "list":
		return said(client.List())
	case "send":
		return said(client.Send(rest))
	case "fetch":
		asked := numbers(rest)
		return said(client.Fetch(asked[0], asked[1:]...))
	case "letters":
		err := client.EachLetter(1, 10000, func(name, event string) bool {
			printed = append(printed, []string{name, event})
			return len(printed) < number(rest)
		})
		return printed, err
	case "dump":
		return said(client.Dump())
	case "tail":
		asked := numbers(second)
		return said(client.Tail(int64(number(first)), asked[0], asked[1:]...))
	case "quit":
		return said(client.Quit())
	case "kept":
		kept := map[string]int64{}
		for name, one := range client.Kept {
			kept[name] = one.N
		}
		return kept, nil
	case "lines":
		replies, err := client.AskAll(strings.Split(rest, ";")...)
		for _, reply := range replies {
			printed = append(printed, reply.Text)
		}
		return printed, err
	}
	return nil, nil
}

func said(reply Reply, err error) (any, error) {
	rows := []any{}
	for _, row := range reply.Rows {
		if reply.Kind == "TAILED" {
			rows = append(rows, row[2])
		} else {
			rows = append(rows, row[2:])
		}
	}
	switch reply.Kind {
	case "OK", "HELD", "BYE":
		return reply.Numbers[0], err
	case "HIT", "LIST":
		return []any{reply.Numbers[0], reply.Names}, err
	case "SENT":
		return reply.Numbers[1:], err
	case "END":
		return rows, err
	case "TAILED":
		return []any{reply.Numbers[0], rows}, err
	case "# DUMP":
		return reply.Text + "\n", err
	}
	return reply.Numbers, err
}

func kindOf(err error) string {
	for kind, known := range map[string]error{"lost": ErrLost, "ended": ErrEnded, "unreadable": ErrUnreadable, "wrong": ErrWrong} {
		if errors.Is(err, known) {
			return kind
		}
	}
	return "refused"
}

func main() {
	words := os.Args[1:]
	count := len(words)
	if count <= 3 {
		words = append(words, []string{"", "30", "127.0.0.1"}[count:]...)
	}
	port, noPort := strconv.ParseUint(words[0], 10, 16)
	patience, noTime := time.ParseDuration(words[1] + "s")
	if count > 3 || noPort != nil || port == 0 || noTime != nil || patience < 0 {
		fmt.Fprintln(os.Stderr, "justmeadow: PORT [PATIENCE [HOST]]: a port from 1 to 65535, and for how many seconds to wait")
		os.Exit(1)
	}
	client, err := Connect(net.JoinHostPort(words[2], words[0]), patience)
	if err != nil {
		fmt.Fprintln(os.Stderr, "justmeadow:", err)
		os.Exit(1)
	}
	defer client.Close()
	input, output := bufio.NewReader(os.Stdin), json.NewEncoder(os.Stdout)
	for line, err := input.ReadString('\n'); err == nil; line, err = input.ReadString('\n') {
		printed, failed := answer(client, strings.TrimSuffix(line, "\n"))
		if failed != nil {
			printed = map[string]string{kindOf(failed): failed.Error()}
		}
		output.Encode(printed)
	}
}
