// The work of a queue by redigo: redigo PORT STEPS, where STEPS is clients/steps.txt. Lines that stand together and
// have one name are sent together.
package main

import (
	"bufio"
	"errors"
	"fmt"
	"log"
	"os"
	"regexp"
	"strings"

	"github.com/gomodule/redigo/redis"
)

var plain = regexp.MustCompile(`^[A-Za-z0-9-]+$`)

func text(value interface{}) string {
	if number, is := value.(int64); is {
		return fmt.Sprint(number)
	}
	told, err := redis.String(value, nil)
	if err != nil {
		log.Fatal(err)
	}
	if plain.MatchString(told) {
		return told
	}
	return fmt.Sprintf("hex:%x", told)
}

func list(value interface{}) []interface{} {
	items, err := redis.Values(value, nil)
	if err != nil {
		log.Fatal(err)
	}
	return items
}

func entry(value interface{}) string {
	parts := list(value)
	if parts[1] == nil {
		return text(parts[0]) + "none"
	}
	fields := list(parts[1])
	shown := []string{}
	for place := 0; place+1 < len(fields); place += 2 {
		shown = append(shown, text(fields[place])+"="+text(fields[place+1]))
	}
	return text(parts[0]) + "{" + strings.Join(shown, " ") + "}"
}

func row(value interface{}) string {
	parts := list(value)
	return text(parts[0]) + "/" + text(parts[1]) + "/" + text(parts[3])
}

func pair(value interface{}) string {
	parts := list(value)
	return text(parts[0]) + "=" + text(parts[1])
}

func each(value interface{}, form func(interface{}) string) string {
	shown := []string{}
	for _, one := range list(value) {
		shown = append(shown, form(one))
	}
	if len(shown) == 0 {
		return "nothing"
	}
	return strings.Join(shown, " ")
}

func streams(value interface{}) string {
	if value == nil {
		return "nothing"
	}
	return each(list(list(value)[0])[1], entry)
}

func pending(value interface{}) string {
	parts := list(value)
	return text(parts[0]) + " " + text(parts[1]) + " " + text(parts[2]) + " " + each(parts[3], pair)
}

var forms = map[string]func(interface{}) string{
	"value":   text,
	"values":  func(value interface{}) string { return each(value, text) },
	"entries": func(value interface{}) string { return each(value, entry) },
	"rows":    func(value interface{}) string { return each(value, row) },
	"streams": streams,
	"pending": pending,
	"scan":    func(value interface{}) string { return text(list(value)[0]) + " " + each(list(value)[1], entry) },
}

func answer(from redis.Conn, shape string) string {
	value, err := from.Receive()
	var told redis.Error
	if errors.As(err, &told) {
		return "error " + strings.Fields(string(told))[0]
	}
	if err != nil {
		log.Fatal(err)
	}
	return forms[shape](value)
}

func send(to redis.Conn, words []string) {
	arguments := []interface{}{}
	for _, word := range words[1:] {
		if word == "@bytes" {
			all := make([]byte, 256)
			for place := range all {
				all[place] = byte(place)
			}
			arguments = append(arguments, all)
		} else {
			arguments = append(arguments, word)
		}
	}
	if err := to.Send(words[0], arguments...); err != nil {
		log.Fatal(err)
	}
}

// Sends the lines together, and says what they were answered.
func step(on redis.Conn, lines [][]string) {
	for _, line := range lines {
		send(on, strings.Fields(line[3]))
	}
	if err := on.Flush(); err != nil {
		log.Fatal(err)
	}
	answers := []string{}
	for _, line := range lines {
		answers = append(answers, answer(on, line[2]))
	}
	fmt.Printf("%s: %s\n", lines[0][1], strings.Join(answers, " "))
}

func main() {
	connections := map[string]redis.Conn{}
	for _, who := range []string{"one", "two"} {
		made, err := redis.Dial("tcp", "127.0.0.1:"+os.Args[1])
		if err != nil {
			log.Fatal(err)
		}
		defer made.Close()
		connections[who] = made
	}
	steps, err := os.Open(os.Args[2])
	if err != nil {
		log.Fatal(err)
	}
	together := [][]string{}
	for scanner := bufio.NewScanner(steps); scanner.Scan(); {
		line := strings.SplitN(scanner.Text(), "|", 4)
		if len(together) > 0 && together[0][1] != line[1] {
			step(connections[together[0][0]], together)
			together = nil
		}
		together = append(together, line)
	}
	step(connections[together[0][0]], together)
}
