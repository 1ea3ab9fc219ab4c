// A client of Justmeadow that needs Go's standard library alone.
//
//	client, err := Connect("127.0.0.1:7000", 30*time.Second)
//	reply, err := client.Subscribe("cheap", "price <= 250") // reply.Numbers[0] is the number of the change
//	reply, err = client.Publish("price=240")                // reply.Names is [cheap]
package main

import (
	"bufio"
	"errors"
	"fmt"
	"net"
	"regexp"
	"sort"
	"strconv"
	"strings"
	"time"
)

const (
	firstPause, longestPause = 50 * time.Millisecond, time.Second // between two attempts
	asTold                   = -1                                 // as many names as the last number
)

// The errors beside Refused. After ErrLost, which says that there is no reply or no connection, the next call tries again.
var (
	ErrLost       = errors.New("lost")
	ErrEnded      = errors.New("the session has ended")
	ErrUnreadable = errors.New("no reply of the protocol, so nothing that follows can be trusted")
	ErrWrong      = errors.New("not sent, since it would be read as something else")
)

// Refused is a reply that says that the line wasn't done: its words, as DUP 1 0, the first of which is its kind.
type Refused []string

func (refused Refused) Error() string { return strings.Join(refused, " ") }

// Reply is what a reply says. Rows are the fields of its lines NOTE, ROW or AT.
type Reply struct {
	Kind, Text string
	Numbers    []int64
	Names      []string
	Rows       [][]string
}

// shape is how many numbers follow the first word of a reply's last line, and how many names; then how many fields each of the
// lines before it has, which are as many as the last number, and their first word.
type shape struct {
	numbers, names, fields int
	row                    string
}

var (
	shapes = map[string]shape{
		"BAD": {}, "LONG": {}, "NOMEM": {}, "SHUT": {},
		"ATTR": {names: 1}, "DOM": {names: 1}, "TWICE": {names: 1},
		"OK": {numbers: 1}, "HELD": {numbers: 1}, "BYE": {numbers: 1}, "NONE": {numbers: 1}, "MANY": {numbers: 1},
		"DUP": {numbers: 2}, "OTHER": {numbers: 2}, "SPLIT": {numbers: 2},
		"COST": {numbers: 3}, "SENT": {numbers: 3},
		"HIT": {numbers: 2, names: asTold}, "LIST": {numbers: 2, names: asTold},
		"END": {1, 0, 4, "NOTE"}, "# DUMP": {2, 0, 3, "ROW"}, "TAILED": {2, 0, 3, "AT"},
	}
	refusals      = regexp.MustCompile(`^(BAD|LONG|NOMEM|SHUT|ATTR|DOM|TWICE|MANY|DUP|NONE|OTHER|SPLIT)$`)
	beforeTheLast = regexp.MustCompile(`^(NOTE|ROW|AT) `)
	names         = regexp.MustCompile(`^[A-Za-z0-9_.-]+$`)
	waits         = regexp.MustCompile(`^[ \t]*(?:FETCH|TAIL[ \t]+[0-9]+)[ \t]+[0-9]+[ \t]+([0-9]{1,8})[ \t]*\r?$`)
	changes       = regexp.MustCompile(`^[ \t]*(SUB|UNSUB|QUIT)\b[ \t]*([A-Za-z0-9_.-]*)[ \t]*(.*?)\r?$`)
)

// parse reads one reply, whose lines have a LF between them.
func parse(text string) (Reply, error) {
	lines := strings.Split(text, "\n")
	words := strings.Split(lines[len(lines)-1], " ")
	kind, words := words[0], words[1:]
	if kind == "#" && len(words) > 0 && words[0] == "DUMP" {
		kind, words = "# DUMP", words[1:]
	}
	form, isRight := shapes[kind]
	reply := Reply{Kind: kind, Names: []string{}, Text: text}
	for at, word := range words {
		if at >= form.numbers {
			isRight = isRight && names.MatchString(word)
			reply.Names = append(reply.Names, word)
		} else if number, err := strconv.ParseUint(word, 10, 63); err == nil {
			reply.Numbers = append(reply.Numbers, int64(number))
		}
	}
	for _, line := range lines[:len(lines)-1] {
		fields := strings.SplitN(line, " ", form.fields)
		isRight = isRight && len(fields) == form.fields && len(fields) > 0 && fields[0] == form.row
		reply.Rows = append(reply.Rows, fields)
	}
	if !isRight || !reply.isComplete(form) {
		return Reply{}, fmt.Errorf("%w: %.200q", ErrUnreadable, text)
	}
	return reply, nil
}

func (reply *Reply) isComplete(form shape) bool {
	if len(reply.Numbers) != form.numbers {
		return false
	}
	names, rows := form.names, 0
	if form.names == asTold {
		names = int(reply.Numbers[form.numbers-1])
	}
	if form.row != "" {
		rows = int(reply.Numbers[form.numbers-1])
	}
	return len(reply.Names) == names && len(reply.Rows) == rows
}

// understood is nil where the reply is of a wanted kind.
func understood(line string, reply Reply, wanted ...string) error {
	for _, kind := range wanted {
		if reply.Kind == kind {
			return nil
		}
	}
	if refusals.MatchString(reply.Kind) {
		return Refused(strings.Split(reply.Text, " "))
	}
	return fmt.Errorf("%w: %.200q answers %.200q", ErrUnreadable, reply.Text, line)
}

// waiting is the line, with the wait behind it where one is given.
func waiting(line string, waitMillis []int) string {
	for _, millis := range waitMillis {
		line += " " + strconv.Itoa(millis)
	}
	return line
}

// waitOf is how long the server may wait before it answers this line.
func waitOf(line string) time.Duration {
	found := waits.FindStringSubmatch(line)
	if found == nil {
		return 0
	}
	millis, _ := strconv.Atoi(found[1])
	return time.Duration(millis) * time.Millisecond
}

// turns calls try until it says that it is done, or until that time, each after a longer pause than the one before.
func turns(until time.Time, try func() (isDone bool)) {
	pause := firstPause
	for !try() && time.Now().Add(pause).Before(until) {
		time.Sleep(pause)
		if pause *= 2; pause > longestPause {
			pause = longestPause
		}
	}
}

// Kept is a subscription. It was accepted as the N-th change.
type Kept struct {
	Name, Condition string
	N               int64
}

// Client is a session that outlives its connections, for one goroutine at a time. The next call after a loss connects again, and
// subscribes again what Kept has, in its order. A name may still be live then, until the server sees that the old connection has
// ended: its DUP is waited out. A call that may be made twice is; Send, Fetch, Quit and AskAll return ErrLost. Letters that
// weren't fetched are gone.
type Client struct {
	Kept     map[string]Kept // by name; what is taken out isn't subscribed again
	address  string
	patience time.Duration
	silence  time.Duration // how long a reply is waited for
	conn     net.Conn      // nil where there is none
	reader   *bufio.Reader
	hasEnded bool
}

// Connect makes a client. It waits at most so long for a reply, besides what the line may wait, and as long to be connected and
// subscribed again.
func Connect(address string, patience time.Duration) (*Client, error) {
	client := &Client{Kept: map[string]Kept{}, address: address, patience: patience}
	return client, client.connect()
}

// Subscribe keeps the condition under the name. The reply's one number is that of this change.
func (client *Client) Subscribe(name, condition string) (Reply, error) {
	return client.change(name, "SUB "+name+" "+condition)
}

// Unsubscribe removes a name. The reply's one number is that of this change.
func (client *Client) Unsubscribe(name string) (Reply, error) {
	return client.change(name, "UNSUB "+name)
}

func (client *Client) change(name, line string) (Reply, error) {
	if !names.MatchString(name) {
		return Reply{}, fmt.Errorf("%w: the name %q", ErrWrong, name)
	}
	return client.told(client.askAgain, line, "OK", "HELD")
}

// Publish finds the Names of the subscriptions that the event satisfies, in order of acceptance.
func (client *Client) Publish(event string) (Reply, error) {
	return client.told(client.askAgain, "PUB "+event, "HIT")
}

// List finds the Names of this session's own subscriptions, in order of acceptance.
func (client *Client) List() (Reply, error) { return client.told(client.askAgain, "LIST", "LIST") }

// Send tells behind the number of changes how many letters were put into boxes, and how many weren't.
func (client *Client) Send(event string) (Reply, error) {
	return client.told(client.ask, "SEND "+event, "SENT")
}

// Fetch takes the next letters, at most so many. Each of the Rows is NOTE, a number, the name and the event. Where there is none it
// waits for one, at most so many milliseconds where these are given. There may be none before that.
func (client *Client) Fetch(most int, waitMillis ...int) (Reply, error) {
	return client.told(client.ask, waiting(fmt.Sprint("FETCH ", most), waitMillis), "END")
}

// EachLetter calls this with the name and the event of each letter, as they come, until the call returns false.
func (client *Client) EachLetter(most, waitMillis int, call func(name, event string) bool) error {
	for {
		began := time.Now()
		reply, err := client.Fetch(most, waitMillis)
		if err != nil {
			return err
		}
		for _, row := range reply.Rows {
			if !call(row[2], row[3]) {
				return nil
			}
		}
		if len(reply.Rows) == 0 && time.Since(began) < firstPause {
			time.Sleep(firstPause) // it was answered early
		}
	}
}

// Dump gives all live subscriptions. The text of the reply is a load file.
func (client *Client) Dump() (Reply, error) { return client.told(client.askAgain, "DUMP", "# DUMP") }

// Tail gives the changes from a place on, at most so many. Each of the Rows is AT, the place and the change. Where the list has no
// more than place it waits until it has, at most so many milliseconds where these are given.
func (client *Client) Tail(place int64, most int, waitMillis ...int) (Reply, error) {
	return client.told(client.askAgain, waiting(fmt.Sprint("TAIL ", place, " ", most), waitMillis), "TAILED")
}

// Quit ends the session. The reply's one number is that of its leave.
func (client *Client) Quit() (Reply, error) { return client.told(client.ask, "QUIT", "BYE", "HELD") }

// Close ends the session for good, without a reply.
func (client *Client) Close() {
	client.hasEnded = true
	client.abandon()
}

// AskAll sends these lines, once each, while it reads their replies, refusals too. With ErrLost nobody knows whether the lines
// that have no reply were done.
func (client *Client) AskAll(lines ...string) (replies []Reply, err error) {
	if strings.Contains(strings.Join(lines, ""), "\n") {
		return nil, fmt.Errorf("%w: a LF within a line", ErrWrong)
	}
	if err = client.connect(); err != nil {
		return nil, err
	}
	replies, err = client.exchange(lines)
	if client.hasEnded && errors.Is(err, ErrLost) {
		err = ErrEnded
	}
	client.hasEnded = client.hasEnded || errors.Is(err, ErrUnreadable)
	return replies, err
}

func (client *Client) ask(line string) (Reply, error) {
	replies, err := client.AskAll(line)
	if err != nil {
		return Reply{}, err
	}
	return replies[0], nil
}

// told asks, and returns a reply of a wanted kind or an error.
func (client *Client) told(ask func(string) (Reply, error), line string, wanted ...string) (Reply, error) {
	reply, err := ask(line)
	if err == nil {
		err = understood(line, reply, wanted...)
	}
	client.hasEnded = client.hasEnded || errors.Is(err, ErrUnreadable)
	return reply, err
}

// askAgain asks again after a loss. A DUP may then be of this very line, done just before the loss: it is waited out too.
func (client *Client) askAgain(line string) (reply Reply, err error) {
	wasLost := false
	turns(time.Now().Add(2*client.patience+waitOf(line)), func() bool {
		if err = client.connect(); err != nil {
			return true
		}
		if reply, err = client.ask(line); errors.Is(err, ErrLost) {
			wasLost = true
			return false
		}
		return err != nil || !wasLost || reply.Kind != "DUP" || client.Kept[strings.Split(line, " ")[1]].N > 0
	})
	return reply, err
}

// exchange sends the lines while it reads their replies. Where it fails there is no connection any more.
func (client *Client) exchange(lines []string) (replies []Reply, err error) {
	sent := make(chan struct{})
	defer func() { <-sent }()
	client.conn.SetDeadline(time.Now().Add(client.silence))
	go func(writer *bufio.Writer) {
		defer close(sent)
		for _, line := range lines {
			writer.WriteString(line + "\n")
		}
		writer.Flush() // where it fails the reader meets the end, and tells it
	}(bufio.NewWriter(client.conn))
	for _, line := range lines {
		reply, err := client.reply(waitOf(line))
		if err != nil {
			client.abandon() // which ends the sending
			return replies, err
		}
		client.note(line, reply)
		replies = append(replies, reply)
	}
	return replies, nil
}

// reply reads one, for which the server may wait so long.
func (client *Client) reply(wait time.Duration) (Reply, error) {
	var text strings.Builder
	for {
		client.conn.SetDeadline(time.Now().Add(client.silence + wait))
		line, err := client.reader.ReadString('\n')
		if err != nil {
			return Reply{}, fmt.Errorf("%w: %v", ErrLost, err)
		}
		text.WriteString(line)
		if !beforeTheLast.MatchString(line) {
			return parse(strings.TrimSuffix(text.String(), "\n"))
		}
	}
}

// note keeps what an accepted line changed, and whether the session has ended.
func (client *Client) note(line string, reply Reply) {
	found := append(changes.FindStringSubmatch(line), "", "")
	isAccepted := reply.Kind == "OK" || reply.Kind == "HELD"
	switch {
	case reply.Kind == "SPLIT", reply.Kind == "BYE", found[1] == "QUIT" && (reply.Kind == "HELD" || reply.Kind == "NOMEM"):
		client.hasEnded = true
	case isAccepted && found[1] == "SUB":
		client.Kept[found[2]] = Kept{found[2], found[3], reply.Numbers[0]}
	case isAccepted && found[1] == "UNSUB":
		delete(client.Kept, found[2])
	}
}

func (client *Client) abandon() {
	if client.conn != nil {
		client.conn.Close()
	}
	client.conn = nil
}

// connect does nothing where there is a connection.
func (client *Client) connect() (err error) {
	if client.hasEnded {
		return ErrEnded
	}
	until := time.Now().Add(client.patience)
	turns(until, func() bool {
		if client.conn != nil {
			return true
		}
		if err = client.restore(until); err != nil {
			client.abandon()
		}
		return !errors.Is(err, ErrLost)
	})
	return err
}

func (client *Client) restore(until time.Time) error {
	if client.silence = time.Until(until); client.silence < firstPause {
		client.silence = firstPause
	}
	conn, err := net.DialTimeout("tcp", client.address, client.silence)
	if err != nil {
		return fmt.Errorf("%w: %v", ErrLost, err)
	}
	client.conn, client.reader = conn, bufio.NewReader(conn)
	err = client.subscribeAgain(until)
	client.silence = client.patience
	return err
}

// subscribeAgain subscribes the first name alone until it is free, since the others of the old session are free then too.
func (client *Client) subscribeAgain(until time.Time) (err error) {
	var left []Kept
	for _, kept := range client.Kept {
		left = append(left, kept)
	}
	sort.Slice(left, func(a, b int) bool { return left[a].N < left[b].N })
	turns(until, func() bool {
		var taken []Kept
		if len(left) > 0 {
			taken, err = client.renew(left[:1])
		}
		if len(left) > 1 && err == nil {
			taken, err = client.renew(left[1:])
			left = taken
		}
		return len(taken) == 0
	})
	return err
}

// renew subscribes these again. It returns those whose names are live still, with the refusal of one, or else the first fault.
func (client *Client) renew(kept []Kept) (taken []Kept, refused error) {
	var lines []string
	for _, one := range kept {
		lines = append(lines, "SUB "+one.Name+" "+one.Condition)
	}
	replies, lost := client.exchange(lines)
	for at, reply := range replies {
		why := understood(lines[at], reply, "OK", "HELD")
		if why != nil && reply.Kind != "DUP" {
			return nil, why
		}
		if why != nil {
			taken, refused = append(taken, kept[at]), why
		}
	}
	if lost != nil {
		return nil, lost
	}
	return taken, refused
}
