// Stores each line of standard input as a record, with sarama: sarama HOST:PORT TOPIC
package main

import (
	"bufio"
	"errors"
	"log"
	"os"
	"sync"
	"time"

	"github.com/IBM/sarama"
)

func main() {
	sarama.MaxRequestSize = 15000000
	config := sarama.NewConfig()
	config.Version = sarama.V1_0_0_0
	config.Metadata.Retry.Max = 60
	config.Producer.Retry.Max = 60
	config.Producer.RequiredAcks = sarama.WaitForAll
	config.Producer.Return.Successes = true
	producer, err := sarama.NewAsyncProducer([]string{os.Args[1]}, config)
	if err != nil {
		log.Fatal(err)
	}
	var unanswered sync.WaitGroup
	status := 0
	go func() {
		for range producer.Successes() {
			unanswered.Done()
		}
	}()
	go func() {
		for lost := range producer.Errors() {
			log.Print(lost)
			message, code := lost.Msg, sarama.ErrNoError
			if errors.As(lost.Err, &code) && code != sarama.ErrKafkaStorageError {
				status = 1
				unanswered.Done()
			} else {
				// Sarama doesn't try code 56 again, nor what came while no broker was there.
				time.AfterFunc(time.Second, func() { producer.Input() <- message })
			}
		}
	}()
	for lines := bufio.NewScanner(os.Stdin); lines.Scan(); {
		unanswered.Add(1)
		producer.Input() <- &sarama.ProducerMessage{Topic: os.Args[2], Value: sarama.StringEncoder(lines.Text())}
	}
	unanswered.Wait()
	os.Exit(status)
}
