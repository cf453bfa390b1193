// A queue by redigo, behind a name, a database, a password and transactions: redigo PORT
package main

import (
	"fmt"
	"log"
	"os"

	"github.com/gomodule/redigo/redis"
)

// What a command or a transaction is answered.
func must(reply interface{}, err error) interface{} {
	if err != nil {
		log.Fatal(err)
	}
	return reply
}

func list(reply interface{}) []interface{} {
	return must(redis.Values(reply, nil)).([]interface{})
}

func text(reply interface{}) string {
	return must(redis.String(reply, nil)).(string)
}

func main() {
	queue, err := redis.Dial("tcp", "127.0.0.1:"+os.Args[1], redis.DialClientName("app"), redis.DialDatabase(0),
		redis.DialPassword("secret"))
	if err != nil {
		log.Fatal(err)
	}
	fmt.Println("name:", text(must(queue.Do("CLIENT", "GETNAME"))))
	queue.Send("MULTI")
	queue.Send("XADD", "t", "1-0", "f", "v")
	queue.Send("XLEN", "t")
	told := list(must(queue.Do("EXEC")))
	fmt.Println("transaction:", text(told[0]), told[1])
	must(queue.Do("XGROUP", "CREATE", "jobs", "workers", "0", "MKSTREAM"))
	queue.Send("MULTI")
	for number := 0; number < 1000; number++ {
		queue.Send("XADD", "jobs", "*", "number", number)
	}
	must(queue.Do("EXEC"))
	done := map[string]bool{}
	for {
		found := must(queue.Do("XREADGROUP", "GROUP", "workers", "one", "COUNT", 100, "BLOCK", 100, "STREAMS", "jobs", ">"))
		if found == nil {
			break
		}
		queue.Send("MULTI")
		for _, one := range list(list(list(found)[0])[1]) {
			entry := list(one)
			done[text(list(entry[1])[1])] = true
			queue.Send("XACK", "jobs", "workers", entry[0])
			queue.Send("XDEL", "jobs", entry[0])
		}
		must(queue.Do("EXEC"))
	}
	pending := list(must(queue.Do("XPENDING", "jobs", "workers")))[0]
	fmt.Printf("done: %d, left: %d, pending: %d\n", len(done), must(queue.Do("XLEN", "jobs")), pending)
}
