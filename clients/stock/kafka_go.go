// Stores each line of standard input as a record, with kafka-go: kafka_go HOST:PORT TOPIC
package main

import (
	"bufio"
	"context"
	"log"
	"os"
	"time"

	"github.com/segmentio/kafka-go"
)

func main() {
	status := 0
	writer := &kafka.Writer{
		Addr:         kafka.TCP(os.Args[1]),
		Topic:        os.Args[2],
		RequiredAcks: kafka.RequireAll,
		MaxAttempts:  100000,
		BatchTimeout: 10 * time.Millisecond,
		Async:        true,
		Completion: func(lost []kafka.Message, err error) {
			if err != nil {
				log.Print(len(lost), " lines: ", err)
				status = 1
			}
		},
	}
	for lines := bufio.NewScanner(os.Stdin); lines.Scan(); {
		line := kafka.Message{Value: []byte(lines.Text())}
		if err := writer.WriteMessages(context.Background(), line); err != nil {
			log.Fatal(err)
		}
	}
	writer.Close()
	os.Exit(status)
}
